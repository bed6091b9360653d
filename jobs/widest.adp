adp 2
# A load goes along a road in sections. A section bears what its bridge bears, a ferry over two sections bears 7, and one
# over three bears 5. A way bears what its weakest part bears: the strongest way is asked for.
class bridge = "a" 3 "b" 4 "c" 6 "d" 8 "e" 9
sign there(token)
sign bridge(token, score)
sign ferry(token, score)
sign long_ferry(token, score)
algebra load max
let there(nothing) = 100
let bridge(bears, rest) = min(bears, rest)
let ferry(sections, rest) = min(7, rest)
let long_ferry(sections, rest) = min(5, rest)
rule road = there("") | bridge([bridge], road) | ferry([bridge 2..2], road) | long_ferry([bridge 3..3], road)
grammar road
words
debea
dbcad
aba
a
