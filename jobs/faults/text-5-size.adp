adp 2
sign a(token)
algebra z min
let a(x) = 0
rule r = a("y") with size 1..1000001
grammar r
words
y
