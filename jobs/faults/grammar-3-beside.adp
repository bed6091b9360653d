adp 1
sign a(token)
sign b(score, score)
algebra z min
let a(x) = 0
let b(s, t) = s + t
rule e = a("")
rule r = a("y") | b(r, e)
grammar r
words
y
