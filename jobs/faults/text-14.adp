adp 1
class c = "y" 0
sign a(token)
algebra z min
let a(x) = 0
rule r = a([c 3..2])
grammar r
words
y
