adp 1
# Other foldings of a strand of RNA: those with most pairs, and the next ones.
class base = "acgu" 0
sign end(token)
sign open(token, score)
sign next(score, score)
sign pair(token, score, token)
sign loop(token)
algebra pairs max
let end(nothing) = 0
let open(base, rest) = rest
let next(fold, rest) = fold + rest
let pair(left, within, right) = 1 + within
let loop(bases) = 0
rule strand = end("") | open([base], strand) | next(fold, strand)
rule within = loop([base 3..]) | open([base], within) | next(fold, strand)
rule fold = pair("a", within, "u") | pair("u", within, "a") | pair("c", within, "g") | pair("g", within, "c") | pair("g", within, "u") | pair("u", within, "g")
grammar strand
words
gggaaaucca
