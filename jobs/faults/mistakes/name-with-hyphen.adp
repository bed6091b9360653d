adp 1
class any = "abc" 0
sign nil(token)
sign left-put(token, score)
algebra cost min
let nil(end) = 0
let left-put(letter, rest) = 1 + rest
rule s = nil("") | left-put([any], s)
grammar s
words
abca
