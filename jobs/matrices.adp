adp 1
# A product of matrices is bracketed at least cost. Its letters: a is 10 by 10, b 10 by 100, c 100 by 10, d 100 by 100.
# A rule for each size of a product (s is 10, l is 100), and a sign for each size of two factors: sl times ll costs
# 10*100*100 multiplications.
sign one(token)
sign sss(score, score)
sign ssl(score, score)
sign sls(score, score)
sign sll(score, score)
sign lss(score, score)
sign lsl(score, score)
sign lls(score, score)
sign lll(score, score)
sign all(score)
algebra multiplications min
let one(matrix) = 0
let sss(left, right) = 1000 + left + right
let ssl(left, right) = 10000 + left + right
let sls(left, right) = 10000 + left + right
let sll(left, right) = 100000 + left + right
let lss(left, right) = 10000 + left + right
let lsl(left, right) = 100000 + left + right
let lls(left, right) = 100000 + left + right
let lll(left, right) = 1000000 + left + right
let all(product) = product
rule product = all(ss) | all(sl) | all(ls) | all(ll)
rule ss = one("a") | sss(ss, ss) | sls(sl, ls)
rule sl = one("b") | ssl(ss, sl) | sll(sl, ll)
rule ls = one("c") | lss(ls, ss) | lls(ll, ls)
rule ll = one("d") | lsl(ls, sl) | lll(ll, ll)
grammar product
words
dcbd
bdca
bb
