adp 1
class c = "y" 1x
sign a(token)
algebra z min
let a(x) = 0
rule r = a("y")
grammar r
words
y
