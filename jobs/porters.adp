adp 2
# A row of boxes is dealt out to three porters, to each some neighbours, so that the one who has most to carry has as
# little as can be. A letter is a box: a weighs 1, b 2, and so on.
class box = "a" 1 "b" 2 "c" 3 "d" 4 "e" 5 "f" 6 "g" 7
sign last(token)
sign share(token, score)
algebra heaviest min
let last(boxes) = boxes
let share(boxes, others) = max(boxes, others)
rule three = share([box 0..], two)
rule two = share([box 0..], one)
rule one = last([box 0..])
grammar three
words
abcdefg
gggaaaaaab
ga
