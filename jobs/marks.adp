adp 1
# Quotes and backslashes: in a job they stand behind a backslash, in a word they stand as they are.
class mark = "\"\\" 1
sign end(token)
sign mark(token, score)
algebra count max
let end(text) = 0
let mark(letter, rest) = letter + rest
rule marks = end("") | mark([mark], marks)
grammar marks
words
"\"
