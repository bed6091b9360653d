adp 1
sign lit(token)
algebra zero max
let lit(x1) = 0
rule a = lit("ab")
grammar a
words
