adp 2
sign a(token)
algebra z min
let a(x) = 0
rule r = a("y") with size 3..2
grammar r
words
y
