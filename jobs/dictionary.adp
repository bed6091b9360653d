adp 1
# A text is packed by a dictionary that is split over two rules, as a large one has to be: a rule has 64 alternatives at
# most. An entry costs 8 bits, a letter as it is costs 9, and a rare entry 12.
class letter = "abcdefghijklmnopqrstuvwxyz " 0
sign end(token)
sign entry(score, score)
sign plain(token, score)
sign common(token)
sign rare(token)
sign further(score)
algebra bits min
let end(nothing) = 0
let entry(one, rest) = one + rest
let plain(letter, rest) = 9 + rest
let common(letters) = 8
let rare(letters) = 12
let further(one) = one
rule text = end("") | entry(words, text) | plain([letter], text)
rule words = common("the ") | common("and ") | common("ing ") | common("ed ") | common("to ") | further(more_words)
rule more_words = rare("nation") | rare("tion") | rare("ight") | rare("night ") | rare("and the ")
grammar text
words
the night and the station 
zigzagging to and fro
