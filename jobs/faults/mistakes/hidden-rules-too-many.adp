adp 3
class any = "abcxy" 1
sign end(token)
sign put(token, score)
sign both(score, score)
algebra cost min
let end(nothing) = 0
let put(letter, rest) = letter + rest
let both(left, right) = left + right
rule line = put("a", put("a", put("a", line))) | put("a", put("a", put("b", line))) | put("a", put("a", put("c", line))) | put("a", put("a", put("x", line))) | put("a", put("b", put("a", line))) | put("a", put("b", put("b", line))) | put("a", put("b", put("c", line))) | put("a", put("b", put("x", line))) | put("a", put("c", put("a", line))) | put("a", put("c", put("b", line))) | put("a", put("c", put("c", line))) | put("a", put("c", put("x", line))) | put("a", put("x", put("a", line))) | put("a", put("x", put("b", line))) | put("a", put("x", put("c", line))) | put("a", put("x", put("x", line))) | put("b", put("a", put("a", line))) | put("b", put("a", put("b", line))) | put("b", put("a", put("c", line))) | put("b", put("a", put("x", line))) | put("b", put("b", put("a", line))) | put("b", put("b", put("b", line))) | put("b", put("b", put("c", line))) | put("b", put("b", put("x", line))) | put("b", put("c", put("a", line))) | put("b", put("c", put("b", line))) | put("b", put("c", put("c", line))) | put("b", put("c", put("x", line))) | put("b", put("x", put("a", line))) | put("b", put("x", put("b", line))) | put("b", put("x", put("c", line))) | put("b", put("x", put("x", line))) | put("c", put("a", put("a", line))) | put("c", put("a", put("b", line))) | put("c", put("a", put("c", line))) | put("c", put("a", put("x", line))) | put("c", put("b", put("a", line))) | put("c", put("b", put("b", line))) | put("c", put("b", put("c", line))) | put("c", put("b", put("x", line))) | put("c", put("c", put("a", line))) | put("c", put("c", put("b", line))) | put("c", put("c", put("c", line))) | put("c", put("c", put("x", line))) | put("c", put("x", put("a", line))) | put("c", put("x", put("b", line))) | put("c", put("x", put("c", line))) | put("c", put("x", put("x", line))) | put("x", put("a", put("a", line))) | put("x", put("a", put("b", line))) | put("x", put("a", put("c", line))) | put("x", put("a", put("x", line))) | put("x", put("b", put("a", line))) | put("x", put("b", put("b", line))) | put("x", put("b", put("c", line))) | put("x", put("b", put("x", line))) | put("x", put("c", put("a", line))) | put("x", put("c", put("b", line))) | put("x", put("c", put("c", line))) | put("x", put("c", put("x", line))) | put("x", put("x", put("a", line))) | put("x", put("x", put("b", line))) | put("x", put("x", put("c", line))) | put("x", put("x", put("x", line)))
rule tail = put("y", end(""))
grammar line
words
abc
