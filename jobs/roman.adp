adp 1
# What a Roman number is worth: its score is its value, and a text that is none has no tree.
class m = "M" 1000
class d = "D" 500
class c = "C" 100
class l = "L" 50
class x = "X" 10
class v = "V" 5
class i = "I" 1
class less_c = "C" -100
class less_x = "X" -10
class less_i = "I" -1
sign place(token, score)
sign two(token, token, score)
sign last(token)
sign last_two(token, token)
algebra value max
let place(letters, rest) = letters + rest
let two(first, second, rest) = first + second + rest
let last(letters) = letters
let last_two(first, second) = first + second
rule number = place([m 0..3], hundreds)
rule hundreds = place([c 0..3], tens) | two([d], [c 0..3], tens) | two([less_c], [d], tens) | two([less_c], [m], tens)
rule tens = place([x 0..3], ones) | two([l], [x 0..3], ones) | two([less_x], [l], ones) | two([less_x], [c], ones)
rule ones = last([i 0..3]) | last_two([v], [i 0..3]) | last_two([less_i], [v]) | last_two([less_i], [x])
grammar number
words
MCMXCIV
MMXXVI
IIX
