adp 1
class any = "xy" 0
sign stop(token)
sign one(token, score)
sign pair(token, score)
algebra cost min
let stop(x1) = 0
let one(x1, x2) = 2 + 1*x2
let pair(x1, x2) = 4 + 1*x2
rule r = stop("") | one([any], r) | pair("xy", r)
grammar r
words
xyxy
