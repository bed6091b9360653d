adp 1
class c = "y" 0
sign a(token)
algebra z min
let a(x) = 0
rule r = a([c 0..1000001])
grammar r
words
y
