adp 2
class c = "y" -1
sign a(token)
sign b(token, score)
algebra z min
let a(x) = 1
let b(x, s) = x * s
rule r = a("y") | b([c], r)
grammar r
words
y
