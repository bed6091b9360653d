adp 1
sign aaaaaaaaaaaaaaaaaaaaaaaaaaaaaaaaa(token)
algebra z min
let a(x) = 0
rule r = a("y")
grammar r
words
y
