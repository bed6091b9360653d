adp 1
class any = "ab" 0
sign nil(token)
sign put(token, score)
algebra len max
let nil(x1) = 0
let put(x1, x2) = 1 + 1*x2
rule s = nil("") | put([any], s)
grammar s
words
abab
