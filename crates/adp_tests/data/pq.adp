adp 1
class any = "pqrs" 0
sign nil(token)
sign skip(token, score)
sign pair(token, score, token, score)
algebra pairs max
let nil(x1) = 0
let skip(x1, x2) = 0 + 1*x2
let pair(x1, x2, x3, x4) = 1 + 1*x2 + 1*x4
rule s = nil("") | skip([any], s) | pair("p", s, "q", s) | pair("r", s, "s", s)
grammar s
words
pq
