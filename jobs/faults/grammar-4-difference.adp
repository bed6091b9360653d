adp 2
sign a(token)
sign b(token, score)
algebra z min
let a(x) = 0
let b(x, s) = 9 - s
rule r = a("y") | b("y", r)
grammar r
words
y
