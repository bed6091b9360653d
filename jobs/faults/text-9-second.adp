adp 1
sign a(token)
algebra z min
let a(x) = 0
let a(x) = 1
rule r = a("y")
grammar r
words
y
