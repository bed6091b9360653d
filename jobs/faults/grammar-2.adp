adp 1
sign a(token)
sign b(score)
algebra z min
let a(x) = 0
let b(s) = s
rule r = b(r)
grammar r
words
y
