adp 3
# Dates, numbers and words are found in a text, as few pieces as can be. A date has its parts in it, with the marks
# behind them; what is none of these is a mark, and costs two.
class digit = "0123456789" 0
class letter = "abcdefghijklmnopqrstuvwxyz" 0
class mark = " .,:-" 0
sign end(token)
sign piece(score, score)
sign mark(token, score)
sign date(score, score, score)
sign year(token, token)
sign month(token, token)
sign day(token, token)
sign number(token)
sign decimal(score, token, score)
sign word(token)
algebra pieces min
let end(nothing) = 0
let piece(first, rest) = 1 + rest
let mark(mark, rest) = 2 + rest
let date(one, two, three) = 0
let year(digits, mark) = 0
let month(digits, mark) = 0
let day(digits, mark) = 0
let number(digits) = 0
let decimal(whole, point, rest) = 0
let word(letters) = 0
rule text = end("") | mark([mark], text) | piece(word([letter 1..]), text) | piece(number([digit 1..]), text) | piece(decimal(number([digit 1..]), ".", number([digit 1..])), text) | piece(date(day([digit 1..2], "."), month([digit 1..2], "."), year([digit 4..4], "")), text) | piece(date(year([digit 4..4], "-"), month([digit 2..2], "-"), day([digit 2..2], "")), text)
grammar text
words
due 29.11.2026: 3.5 kg
2026-11-29
1.2.3
