adp 1
class any = "abc" 0
sign nil(token)
sign put(token, score)
algebra cost min
let nil(end) = 0
let put(letter, rest) = 1 + rest
rule s = nil("") | put([any], s)
grammar s
words
"abc"
