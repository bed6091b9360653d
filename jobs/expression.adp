adp 2
# What brackets can make of an expression: its least value, its greatest one, and the least depth of its tree.
class digit = "1" 1 "2" 2 "3" 3 "4" 4 "5" 5 "6" 6 "7" 7 "8" 8 "9" 9
sign number(token)
sign add(score, token, score)
sign times(score, token, score)
algebra low min
let number(digit) = digit
let add(left, plus, right) = left + right
let times(left, cross, right) = left * right
algebra high max
let number(digit) = digit
let add(left, plus, right) = left + right
let times(left, cross, right) = left * right
algebra depth min
let number(digit) = 1
let add(left, plus, right) = 1 + max(left, right)
let times(left, cross, right) = 1 + max(left, right)
rule value = number([digit]) | add(value, "+", value) | times(value, "*", value)
grammar value
words
1+2*3*4+5
9
