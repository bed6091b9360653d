adp 2
class digit = "1" 1 "5" 5
sign one(token)
sign join(score, token, score)
algebra most max
let one(x1) = x1
let join(x1, x2, x3) = (x1 * x3) + max(x2, 1)
algebra deep min
let one(x1) = 0 - (2 * x1)
let join(x1, x2, x3) = (1 + max(x1, x3)) - min(x2, 7)
rule s = join(t, [digit 0..2], t) with size 2..9 | one("5")
rule t = one([digit]) | join(t, "+", t) with size 3..5
grammar s
words
1+5
