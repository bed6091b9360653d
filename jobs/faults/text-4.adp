adp 1
sign 9a(token)
algebra z min
let a(x) = 0
rule r = a("y")
grammar r
words
y
