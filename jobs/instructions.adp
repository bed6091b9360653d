adp 3
# An expression, with brackets in each other, is put into instructions at least cost. A sum costs 1 and a product 3; but
# a product by 2 costs 1, and so does one by 2 of a sum in brackets, the sum included, and a product is added to a sum
# at no further cost.
class letter = "abcdxyz" 0
class digit = "0123456789" 0
sign load(token)
sign constant(token)
sign brackets(token, score, token)
sign add(score, token, score)
sign times(score, token, score)
sign fused(score, token, score)
sign twice(token, score)
sign shifted(token, score)
sign just(score)
algebra cost min
let load(letter) = 1
let constant(digits) = 0
let brackets(open, within, close) = within
let add(left, plus, right) = 1 + left + right
let times(left, cross, right) = 3 + left + right
let fused(sum, plus, product) = sum + product
let twice(two, part) = 1 + part
let shifted(two, sum) = sum
let just(part) = part
rule sum = add(sum, "+", product) | fused(sum, "+", times(product, "*", part)) | just(product)
rule product = times(product, "*", part) | twice("2*", part) | shifted("2*", brackets("(", add(sum, "+", product), ")")) | just(part)
rule part = load([letter]) | constant([digit 1..]) | brackets("(", sum, ")")
grammar sum
words
a*b+c*d
2*(x+y)*z
((a+b)*(2*(c+d)+7))
