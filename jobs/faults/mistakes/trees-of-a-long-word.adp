adp 1
# As many brackets as can be are paired; a bracket without a partner is left alone.
class bracket = "()[]" 0
sign end(token)
sign alone(token, score)
sign round(token, score, token, score)
sign square(token, score, token, score)
algebra pairs max
let end(text) = 0
let alone(bracket, rest) = rest
let round(open, within, close, rest) = 1 + within + rest
let square(open, within, close, rest) = 1 + within + rest
rule line = end("") | alone([bracket], line) | round("(", line, ")", line) | square("[", line, "]", line)
grammar line
words
([)]([)]([)]([)]([)]([)]([)]([)]([)]([)]([)]([)]([)]([)]([)]([)]([)]([)]([)]([)]([)]([)]([)]([)]([)]([)]([)]([)]([)]([)]([)]([)]([)]([)]([)]([)]([)]([)]([)]([)]([)]([)]([)]([)]([)]([)]([)]([)]([)]([)]([)]([)]([)]([)]([)]([)]([)]([)]([)]([)]([)]([)]([)]([)]([)]([)]([)]([)]([)]([)]([)]([)]([)]([)]([)]([)]([)]([)]([)]([)]([)]([)]([)]([)]([)]([)]([)]([)]([)]([)]([)]([)]([)]([)]([)]([)]([)]([)]([)]([)]
