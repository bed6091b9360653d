adp 1
# An amount is paid with as few coins as can be; each x is a cent, and there are coins of 1, 10 and 25 cents.
class cent = "x" 0
sign paid(token)
sign coin(token, score)
algebra coins min
let paid(nothing) = 0
let coin(cents, rest) = 1 + rest
rule amount = paid("") | coin([cent 1..1], amount) | coin([cent 10..10], amount) | coin([cent 25..25], amount)
grammar amount
words
xxxxxxxxxxxxxxxxxxxxxxxxxxxxxx
