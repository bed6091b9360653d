adp 1
# An optimal search tree for the keys a to e, which are asked for 4, 2, 6, 3 and 1 times. A key costs its count once for
# each level, so a rule for each level carries the factor: `top` counts once, `second` twice, `third` three times.
class key = "a" 4 "b" 2 "c" 6 "d" 3 "e" 1
sign none(token)
sign top(score, token, score)
sign second(score, token, score)
sign third(score, token, score)
algebra looks min
let none(nothing) = 0
let top(left, key, right) = left + key + right
let second(left, key, right) = left + 2*key + right
let third(left, key, right) = left + 3*key + right
rule tree = top(lower, [key], lower)
rule lower = none("") | second(lowest, [key], lowest)
rule lowest = none("") | third(leaf, [key], leaf)
rule leaf = none("")
grammar tree
words
abcde
ace
aaaaaaaa
