adp 1
# The empty word, by three evaluators of which two are stopped within their steps.
class any = "pqrs" 0
sign nil(token)
sign skip(token, score)
sign pair(token, score, token, score)
algebra pairs max
let nil(text) = 0
let skip(letter, rest) = rest
let pair(open, within, close, rest) = 1 + within + rest
rule s = nil("") | skip([any], s) | pair("p", s, "q", s) | pair("r", s, "s", s)
grammar s
words

