adp 2
sign a(token)
sign b(score, token, score)
algebra z min
let a(x) = 3 - 1
let b(s, x, t) = s * t
rule r = a("y") | b(r, "y", r)
grammar r
words
y
