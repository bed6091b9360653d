adp 1
# A knapsack holds ten kilograms: which of five things to take, each once or not at all, so that they are worth most. A
# letter is a kilogram of room. A rule for each thing, in order: it is taken, with its kilograms, or left at home.
class room = "x" 0
sign tent(token, score)
sign stove(token, score)
sign rope(token, score)
sign lamp(token, score)
sign tea(token, score)
sign without(score)
sign left(token)
algebra worth max
let tent(kilograms, rest) = 9 + rest
let stove(kilograms, rest) = 5 + rest
let rope(kilograms, rest) = 8 + rest
let lamp(kilograms, rest) = 3 + rest
let tea(kilograms, rest) = 2 + rest
let without(rest) = rest
let left(kilograms) = 0
rule first = tent("xxxxx", second) | without(second)
rule second = stove("xxx", third) | without(third)
rule third = rope("xxxx", fourth) | without(fourth)
rule fourth = lamp("xx", fifth) | without(fifth)
rule fifth = tea("x", rest) | without(rest)
rule rest = left([room 0..])
grammar first
words
xxxxxxxxxx
xxxxxx
