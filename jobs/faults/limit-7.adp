adp 1
sign a(token)
algebra z min
let a(x) = 1537228672809129302
algebra q min
let a(x) = 1
rule r = a("y")
grammar r
words
y
