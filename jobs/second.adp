adp 1
# Second readings of a sentence without spaces: each word has its cost, and what is read may be read otherwise.
class letter = "abcdefghijklmnopqrstuvwxyz" 0
sign end(token)
sign next(score, score)
sign common(token)
sign rare(token)
algebra cost min
let end(nothing) = 0
let next(word, rest) = word + rest
let common(letters) = 2
let rare(letters) = 5
rule text = end("") | next(word, text)
rule word = common("hope") | common("is") | common("no") | common("now") | common("where") | common("here") | common("nowhere") | rare("ho") | rare("pe")
grammar text
words
hopeisnowhere
ishopehere
