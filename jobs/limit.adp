adp 1
# Ten copies of a great factor: a score could pass 2^62 - 1, so the word is refused.
class one = "a" 1
sign end(token)
sign times(token, score)
algebra product max
let end(text) = 1
let times(letter, rest) = 100*rest
rule row = end("") | times([one], row)
grammar row
words
aaaaaaaaaa
