adp 1
sign a(token, token)
algebra z min
let a(x, x) = 0
rule r = a("y", "y")
grammar r
words
y
