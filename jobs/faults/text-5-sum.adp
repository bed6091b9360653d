adp 1
sign a(token)
algebra z min
let a(x) = 4611686018427387903*x + x
rule r = a("y")
grammar r
words
y
