adp 1
# Brackets of three kinds are mended at least cost: a bracket left out costs 3, and a pair of two kinds 2.
class open = "([{" 0
class close = ")]}" 0
class any = "()[]{}" 0
sign end(token)
sign pair(token, score, token, score)
sign mixed(token, score, token, score)
sign out(token, score)
algebra cost min
let end(nothing) = 0
let pair(open, within, close, rest) = within + rest
let mixed(open, within, close, rest) = 2 + within + rest
let out(bracket, rest) = 3 + rest
rule line = end("") | pair("(", line, ")", line) | pair("[", line, "]", line) | pair("{", line, "}", line) | mixed([open], line, [close], line) | out([any], line)
grammar line
words
([]{})
([)]
}{([])
