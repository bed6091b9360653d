adp 1
# A week of days and nights is covered by shifts of two to four parts; a long one costs more.
class part = "dn" 0
sign end(token)
sign shift(token, score)
sign long(token, score)
algebra cost min
let end(text) = 0
let shift(parts, rest) = 3 + rest
let long(parts, rest) = 5 + rest
rule week = end("") | shift([part 2..3], week) | long([part 4..4], week)
grammar week
words
dndndndndndndn
