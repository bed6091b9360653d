adp 1
sign a(token)
algebra z min
let a(x) = 4611686018427387904
rule r = a("y")
grammar r
words
y
