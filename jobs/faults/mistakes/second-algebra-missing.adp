adp 1
# One text, two ways to judge its readings: the cost of its words, or their number.
class letter = "abcdefghijklmnopqrstuvwxyz" 0
sign end(token)
sign long(token, score)
sign short(token, score)
sign rare(token, score)
sign other(token, score)
algebra cost min
let end(text) = 0
let long(text, rest) = 4 + rest
let short(text, rest) = 2 + rest
let rare(text, rest) = 3 + rest
let other(letter, rest) = 9 + rest
algebra pieces min
let end(text) = 0
let long(text, rest) = 1 + rest
let short(text, rest) = 1 + rest
let rare(text, rest) = 1 + rest
let other(letter, rest) = 1 + rest
rule line = end("") | long("there", line) | short("the", line) | rare("red", line) | other([letter], line)
grammar line
words
thered
