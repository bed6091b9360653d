adp 2
sign a(token)
algebra z min
let a(x) = 0
rule r = a("y") | a("yy") with size 3..
grammar r
words
y
