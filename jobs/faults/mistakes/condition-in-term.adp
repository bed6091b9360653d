adp 1
class any = "abc" 0
sign nil(token)
sign put(token, score)
algebra cost min
let nil(end) = 0
let put(letter, rest) = if letter then 1 else 0
rule s = nil("") | put([any], s)
grammar s
words
abca
