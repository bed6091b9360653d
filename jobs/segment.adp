adp 1
# A text without spaces is split into known words; a common word costs 2, a rare one 5, and an unknown letter 100.
class letter = "abcdefghijklmnopqrstuvwxyz" 0
sign end(token)
sign next(score, score)
sign unknown(token, score)
sign common(token)
sign rare(token)
algebra cost min
let end(nothing) = 0
let next(word, rest) = word + rest
let unknown(letter, rest) = 100 + rest
let common(letters) = 2
let rare(letters) = 5
rule text = end("") | next(word, text) | unknown([letter], text)
rule word = common("the") | common("them") | rare("theme") | common("men") | common("in") | common("night")
grammar text
words
themenin
thenightx
