adp 1
# A bar of seven units is sawn into pieces that sell at these prices; each x is a unit.
sign end(token)
sign one(token, score)
sign two(token, score)
sign three(token, score)
sign four(token, score)
algebra price max
let end(piece) = 0
let one(piece, rest) = 1 + rest
let two(piece, rest) = 5 + rest
let three(piece, rest) = 8 + rest
let four(piece, rest) = 9 + rest
rule bar = end("") | one("x", bar) | two("xx", bar) | three("xxx", bar) | four("xxxx", bar)
grammar bar
words
xxxxxxx
