adp 2
sign a(token)
algebra z min
let a(x) = x + 2*x
rule r = a("y")
grammar r
words
y
