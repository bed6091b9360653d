adp 1
class c = "y" 4611686018427387903
sign a(token)
algebra z min
let a(x) = x
rule r = a([c 1..])
grammar r
words
yy
