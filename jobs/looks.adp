adp 2
# An optimal search tree, of any depth, for the keys a to e, which are asked for 4, 2, 6, 3 and 1 times. A key costs its
# count once for each level. Between the keys stand marks, which weigh the counts of all keys before them: what the keys
# of a tree cost on its level is the mark behind it less the mark before it. So each node takes one letter of both marks,
# and of each mark there are five letters, as many as there are keys.
class key = "abcde" 0
class mark = "u" 0 "v" 4 "w" 6 "x" 12 "y" 15 "z" 16
sign none(token)
sign behind(score, token)
sign node(token, score, score, token)
algebra looks min
let none(marks) = 0
let behind(tree, key) = tree
let node(before, left, right, behind) = left + right + (behind - before)
rule tree = none([mark 0..]) | node([mark], left, tree, [mark])
rule left = behind(tree, [key])
grammar tree
words
uuuuuavvvvvbwwwwwcxxxxxdyyyyyezzzzz
vvvbwwwcxxxdyyy
