adp 1
sign a(token)
sign b(score)
algebra z min
let a(x) = 0
let b(s) = 0 - s
rule r = a("y")
grammar r
words
y
