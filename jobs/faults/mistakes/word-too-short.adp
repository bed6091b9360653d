adp 1
class any = "abc" 0
sign nil(token)
sign put(token, score)
algebra cost min
let nil(end) = 0
let put(letter, rest) = 1 + rest
rule s = put("abc", t)
rule t = put([any 2..3], s) | nil("bb") | nil("cab")
grammar s
words
abcb
ab
abcca
abcbbc

