adp 1
# Many words under one grammar: a report for each, in order. An empty line is the empty word.
class any = "pqrs" 0
sign nil(token)
sign skip(token, score)
sign pair(token, score, token, score)
algebra pairs max
let nil(x) = 0
let skip(x, rest) = rest
let pair(open, within, close, rest) = 1 + within + rest
rule s = nil("") | skip([any], s) | pair("p", s, "q", s) | pair("r", s, "s", s)
grammar s
words
pq

pqq
prsq
x
