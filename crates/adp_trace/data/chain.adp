adp 1
# Plates are joined to a chain, two neighbours at a time; a join costs twice its left side, and its right side.
class plate = "a" 1 "b" 4 "c" 2
sign plate(token)
sign join(score, score)
algebra work min
let plate(weight) = weight
let join(left, right) = 2*left + right
rule chain = plate([plate]) | join(chain, chain)
grammar chain
words
abcab
