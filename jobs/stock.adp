adp 2
# A board is sawn into pieces. `-` is clear wood, `k` a knot. A clear piece of three units or more sells for 4 a unit, a
# piece with one knot within for 2 a unit, where it is five to eight units long; what else falls off costs 1 a unit.
class clear = "-" 1
class wood = "-k" 1
sign end(token)
sign clear(token, score)
sign knotty(score, score)
sign waste(token, score)
sign around(token, token, token)
algebra price max
let end(nothing) = 0
let clear(units, rest) = 4*units + rest
let knotty(piece, rest) = piece + rest
let waste(unit, rest) = rest - unit
let around(left, knot, right) = 2*(left + 1 + right)
rule board = end("") | clear([clear 3..], board) | knotty(piece, board) | waste([wood], board)
rule piece = around([clear 0..], "k", [clear 0..]) with size 5..8
grammar board
words
---k----
--k-k-----k--
kk-kk
