adp 1
# A line of letters, some of which pair up.
class any = "abc" 1
sign end(token)
sign put(token, score)
sign pair(token, score, token, score)
algebra cost min
let end(text) = 0
let put(letter, rest) = 2*letter + rest
let pair(open, within, close, rest) = 1 + within + rest
rule line = end("") |
     put([any], line)
grammar line
words
abc
