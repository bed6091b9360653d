adp 2
# A line of letters, some of which pair up.
class any = "abc" 1
sign end(token)
sign put(token, score)
sign pair(token, score, token, score)
algebra cost min
let end(text) = 0
let put(letter, rest) = letter + rest
let pair(open, within, close, rest) = within + rest
rule line = end("") | put([any], line) | pair("a", line, "b", line) with minsize(4)
grammar line
words
abc
