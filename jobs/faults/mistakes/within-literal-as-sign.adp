adp 3
class any = "abcxy" 1
sign end(token)
sign put(token, score)
sign both(score, score)
algebra cost min
let end(nothing) = 0
let put(letter, rest) = letter + rest
let both(left, right) = left + right
rule line = end("") | put([any], "put"([any], line))
grammar line
words
abc
