adp 1
# A text is broken into lines of at most 16 letters, between words. A line costs more the more room is left: nothing from
# 15 letters on, 1 from 13, 4 from 10, 9 from 7, and 20 below; the last line costs nothing. No word is parted.
class letter = "abcdefghijklmnopqrstuvwxyz" 0
class any = "abcdefghijklmnopqrstuvwxyz " 0
sign full(token, token, score)
sign good(token, token, score)
sign loose(token, token, score)
sign poor(token, token, score)
sign bad(token, token, score)
sign last(token)
algebra cost min
let full(line, space, rest) = rest
let good(line, space, rest) = 1 + rest
let loose(line, space, rest) = 4 + rest
let poor(line, space, rest) = 9 + rest
let bad(line, space, rest) = 20 + rest
let last(line) = 0
rule text = last([any 1..16]) | full([any 15..16], " ", text) | good([any 13..14], " ", text) | loose([any 10..12], " ", text) | poor([any 7..9], " ", text) | bad([any 1..6], " ", text)
grammar text
words
the quick brown fox jumps over the lazy dog and sleeps
a unit
