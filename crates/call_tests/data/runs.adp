adp 1
class c = "a\"" 5 "\\" -2
sign three(token, score, token)
sign one(token)
algebra least min
let three(x1, x2, x3) = -1 + 2*x1 - 3*x3
let one(x1) = 0
algebra greatest max
let three(x1, x2, x3) = 0 + 1*x2
let one(x1) = 4611686018427387903
rule r = three([c 1..], r, [c 0..30]) | one("\\\"")
grammar r
words

\"
