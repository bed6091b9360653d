adp 1
# The next best cuts of a bar into pieces of three and five units: a piece costs 2, and what is left over 4 a unit.
class unit = "x" 1
sign end(token)
sign piece(token, score)
sign left(token)
algebra cost min
let end(nothing) = 0
let piece(units, rest) = 2 + rest
let left(units) = 4*units
rule bar = end("") | piece("xxx", bar) | piece("xxxxx", bar) | left([unit 1..])
grammar bar
words
xxxxxxxxxxx
