adp 2
# A strand of RNA is folded with as many pairs as can be; a pair has at least three bases within, which a clause asks
# for: with both bases of the pair it covers at least five.
class base = "acgu" 0
sign end(token)
sign open(token, score)
sign next(score, score)
sign pair(token, score, token)
algebra pairs max
let end(text) = 0
let open(base, rest) = rest
let next(fold, rest) = fold + rest
let pair(five, within, three) = 1 + within
rule strand = end("") | open([base], strand) | next(fold, strand)
rule fold = pair("a", strand, "u") with size 5.. | pair("u", strand, "a") with size 5.. | pair("c", strand, "g") with size 5.. | pair("g", strand, "c") with size 5.. | pair("g", strand, "u") with size 5.. | pair("u", strand, "g") with size 5..
grammar strand
words
gggaaauccc
gcgcaaaagcgc
acgu
