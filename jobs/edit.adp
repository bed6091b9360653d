adp 1
# The least number of edits from one strand to another. The second stands behind a bar, written backwards, so that
# bases that belong to each other pair up like brackets: acgt|tga takes acgt to agt.
class base = "acgt" 0
sign bar(token)
sign keep(token, score, token)
sign replace(token, score, token)
sign delete(token, score)
sign insert(score, token)
algebra edits min
let bar(text) = 0
let keep(old, rest, new) = rest
let replace(old, rest, new) = 1 + rest
let delete(old, rest) = 1 + rest
let insert(rest, new) = 1 + rest
rule from = bar("|") | keep("a", from, "a") | keep("c", from, "c") | keep("g", from, "g") | keep("t", from, "t") | replace([base], from, [base]) | delete([base], from) | insert(from, [base])
grammar from
words
acgt|tga
gattaca|acatg
