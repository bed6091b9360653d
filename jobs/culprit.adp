adp 1
# Which letter is in the way: what fits nothing is passed over at a great cost, and shows in the tree.
class digit = "0123456789" 0
class any = " 0123456789abcdefghijklmnopqrstuvwxyz-+" 0
sign end(token)
sign number(token, score)
sign plus(token, score)
sign passed(token, score)
algebra cost min
let end(text) = 0
let number(digits, rest) = 1 + rest
let plus(text, rest) = rest
let passed(letter, rest) = 1000 + rest
rule sum = end("") | number([digit 1..], sum) | plus("+", sum) | passed([any], sum)
grammar sum
words
12+3o+4
