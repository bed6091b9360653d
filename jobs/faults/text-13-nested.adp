adp 3
sign a(token)
sign b(score)
algebra z min
let a(x) = 0
let b(s) = s
rule r = a("y") | b(b("y"))
grammar r
words
y
