adp 1
class w = "abc" 0
sign stop(token)
sign cut(token, score)
algebra pieces min
let stop(x1) = 0
let cut(x1, x2) = 2305843009213693952 + 1*x2
rule t = stop("") | cut([w 1..3], t)
grammar t
words
a
aa
