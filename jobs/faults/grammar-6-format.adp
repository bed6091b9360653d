adp 2
sign a(token)
algebra z min
let a(x) = 0
algebra q min
let a(x) = 0
rule r = a("y")
grammar r
words
y
