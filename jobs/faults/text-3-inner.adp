adp 3
sign a(token)
sign b(score)
algebra z min
let a(x) = 0
let b(s) = s
rule r = b(a("y") with size 1..)
grammar r
words
y
