adp 2
# A product of matrices is bracketed at least cost. A word has the sizes, the rows of the first matrix and the columns of
# each: t is 10, h 30, f 5 and s 60. Of each size there are as many letters as sizes behind it, of the last one a letter,
# and a comma between sizes: `ttt,hh,f,s` is 10 by 30 times 30 by 5 times 5 by 60. A product takes a letter of its rows,
# one of the size in the middle, and has a rule for its columns, whose letters stand behind it.
class size = "t" 10 "h" 30 "f" 5 "s" 60
class t = "t" 10
class h = "h" 30
class f = "f" 5
class s = "s" 60
sign one(token, token)
sign times_t(token, score, token, score)
sign times_h(token, score, token, score)
sign times_f(token, score, token, score)
sign times_s(token, score, token, score)
sign all(score, token)
algebra multiplications min
let one(rows, comma) = 0
let times_t(rows, left, middle, right) = left + right + rows*middle*10
let times_h(rows, left, middle, right) = left + right + rows*middle*30
let times_f(rows, left, middle, right) = left + right + rows*middle*5
let times_s(rows, left, middle, right) = left + right + rows*middle*60
let all(product, columns) = product
rule whole = all(by_t, [t]) | all(by_h, [h]) | all(by_f, [f]) | all(by_s, [s])
rule by_t = one([size 0..], ",") | times_t([size], by_t, [t], by_t) | times_t([size], by_h, [h], by_t) | times_t([size], by_f, [f], by_t) | times_t([size], by_s, [s], by_t)
rule by_h = one([size 0..], ",") | times_h([size], by_t, [t], by_h) | times_h([size], by_h, [h], by_h) | times_h([size], by_f, [f], by_h) | times_h([size], by_s, [s], by_h)
rule by_f = one([size 0..], ",") | times_f([size], by_t, [t], by_f) | times_f([size], by_h, [h], by_f) | times_f([size], by_f, [f], by_f) | times_f([size], by_s, [s], by_f)
rule by_s = one([size 0..], ",") | times_s([size], by_t, [t], by_s) | times_s([size], by_h, [h], by_s) | times_s([size], by_f, [f], by_s) | times_s([size], by_s, [s], by_s)
grammar whole
words
ttt,hh,f,s
hhhhh,ffff,ttt,ss,h,t
t,t
