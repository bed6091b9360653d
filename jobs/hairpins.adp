adp 1
# Hairpins of a strand: pairs stack up around a loop of three bases at least. Each pair earns 2 or 3; a loop costs 4.
class base = "acgu" 0
sign end(token)
sign open(token, score)
sign stem(score, score)
sign strong(token, score, token)
sign weak(token, score, token)
sign loop(token)
algebra worth max
let end(nothing) = 0
let open(base, rest) = rest
let stem(hairpin, rest) = hairpin + rest
let strong(left, within, right) = 3 + within
let weak(left, within, right) = 2 + within
let loop(bases) = -4
rule strand = end("") | open([base], strand) | stem(hairpin, strand)
rule hairpin = strong("g", inner, "c") | strong("c", inner, "g") | weak("a", inner, "u") | weak("u", inner, "a")
rule inner = loop([base 3..8]) | strong("g", inner, "c") | strong("c", inner, "g") | weak("a", inner, "u") | weak("u", inner, "a")
grammar strand
words
aggcaaagccuu
ggcaaaagccaccguuuucgg
aaaa
