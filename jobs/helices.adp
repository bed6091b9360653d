adp 3
# A strand of RNA is folded with as many pairs as can be, and with none that stands alone: a helix begins with two pairs
# right within each other, the outer one of g and c, and within are more pairs, or three bases at least. The loop uucg
# between c and g earns one more.
class base = "acgu" 0
sign end(token)
sign open(token, score)
sign next(score, score)
sign pair(token, score, token)
sign loop(token)
sign tight(token)
algebra pairs max
let end(nothing) = 0
let open(base, rest) = rest
let next(helix, rest) = helix + rest
let pair(left, within, right) = 1 + within
let loop(bases) = 0
let tight(bases) = 1
rule strand = end("") | open([base], strand) | next(helix, strand)
rule helix = pair("g", pair("g", inner, "c"), "c") | pair("g", pair("c", inner, "g"), "c") | pair("g", pair("a", inner, "u"), "c") | pair("g", pair("u", inner, "a"), "c") | pair("c", pair("g", inner, "c"), "g") | pair("c", pair("c", inner, "g"), "g") | pair("c", pair("a", inner, "u"), "g") | pair("c", pair("u", inner, "a"), "g")
rule inner = loop([base 3..]) | pair("g", inner, "c") | pair("c", inner, "g") | pair("a", inner, "u") | pair("u", inner, "a") | pair("c", tight("uucg"), "g")
grammar strand
words
aggcaaagccuu
ggcaaaagccacgcuucggcg
gaaaac
