adp 1
# The next best cuts of a bar, each of them once: the pieces of five units first, then those of three, then what is left.
class unit = "x" 1
sign end(token)
sign piece(token, score)
sign left(token)
algebra cost min
let end(nothing) = 0
let piece(units, rest) = 2 + rest
let left(units) = 4*units
rule fives = end("") | piece("xxxxx", fives) | piece("xxx", threes) | left([unit 1..])
rule threes = end("") | piece("xxx", threes) | left([unit 1..])
grammar fives
words
xxxxxxxxxxx
