adp 1
class any = "ab" 0
sign stop(token)
sign go(score, score)
sign step(token)
algebra most max
let stop(x1) = 0
let go(x1, x2) = 1 + 1*x1 + 1*x2
let step(x1) = 0
rule walk = stop("") | go(one, walk)
rule one = step([any 1..2])
grammar walk
words
