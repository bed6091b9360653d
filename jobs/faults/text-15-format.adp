adp 1
sign a(token)
algebra z min
let a(x) = max(x, 1)
rule r = a("y")
grammar r
words
y
