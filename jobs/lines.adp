adp 1
# A text is broken at its blanks into lines of at most twelve letters. A line with much room left over costs much, one
# with little room little, and the last line nothing.
class any = "abcdefghijklmnopqrstuvwxyz ,." 0
sign full(token, token, score)
sign good(token, token, score)
sign short(token, token, score)
sign last(token)
algebra cost min
let full(line, blank, rest) = rest
let good(line, blank, rest) = 2 + rest
let short(line, blank, rest) = 9 + rest
let last(line) = 0
rule text = last([any 0..12]) | full([any 11..12], " ", text) | good([any 8..10], " ", text) | short([any 1..7], " ", text)
grammar text
words
a text is broken at its blanks into lines.
