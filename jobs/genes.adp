adp 1
# Where a strand of DNA has a gene, told by a hidden Markov model of 20 states: outside, the six places of a box before
# the gene, a gap, the start atg, the three places of what is coded, one of the stops taa, tag and tga, and what stands
# behind. As in weather.adp, what happens with probability p costs ten times the logarithm of 1/p to the base 2: the
# weight of a letter in the class of its state, and the number of the sign of each step to a state.
class outer = "a" 17 "c" 23 "g" 23 "t" 17
class mostly_t = "a" 43 "c" 43 "g" 43 "t" 2
class mostly_a = "a" 2 "c" 43 "g" 43 "t" 43
class first = "a" 20 "c" 20 "g" 14 "t" 31
class second = "a" 17 "c" 21 "g" 25 "t" 18
class third = "a" 31 "c" 14 "g" 14 "t" 31
class a_or_g = "a" 5 "g" 17
sign outside(token, score)
sign promoter(token, score)
sign last(token)
sign box(token, score)
sign gap(token, score)
sign begin(token, score)
sign start(token, score)
sign code(token, score)
sign next(token, score)
sign enough(token, score)
sign stop_by_a(token, score)
sign stop_by_g(token, score)
sign stop(token, score)
sign behind(token, score)
sign away(token, score)
sign end(token)
algebra surprise min
let outside(base, rest) = base + rest
let promoter(base, rest) = 56 + base + rest
let last(base) = 66 + base
let box(base, rest) = base + rest
let gap(base, rest) = 2 + base + rest
let begin(base, rest) = 27 + base + rest
let start(base, rest) = base + rest
let code(base, rest) = base + rest
let next(base, rest) = 1 + base + rest
let enough(base, rest) = 43 + base + rest
let stop_by_a(base, rest) = 7 + base + rest
let stop_by_g(base, rest) = 13 + base + rest
let stop(base, rest) = base + rest
let behind(base, rest) = 3 + base + rest
let away(base, rest) = 27 + base + rest
let end(base) = 43 + base
rule outside = outside([outer], outside) | promoter([outer], box_1) | last([outer])
rule box_1 = box([mostly_t], box_2)
rule box_2 = box([mostly_a], box_3)
rule box_3 = box([mostly_t], box_4)
rule box_4 = box([mostly_a], box_5)
rule box_5 = box([mostly_a], box_6)
rule box_6 = box([mostly_t], gap)
rule gap = gap([outer], gap) | begin([outer], start_a)
rule start_a = start("a", start_t)
rule start_t = start("t", start_g)
rule start_g = start("g", code_1)
rule code_1 = code([first], code_2)
rule code_2 = code([second], code_3)
rule code_3 = next([third], code_1) | enough([third], stop_t)
rule stop_t = stop_by_a("t", stop_a) | stop_by_g("t", stop_g)
rule stop_a = stop("a", last_a_or_g)
rule stop_g = stop("g", last_a)
rule last_a_or_g = stop([a_or_g], behind)
rule last_a = stop("a", behind)
rule behind = behind([outer], behind) | away([outer], outside) | end([outer])
grammar outside
words
ttgctgtttataataacaaatgctggagcaaatggtccgggtagggacataagcgca
ctaagagcctacagactcgtaaatgacaca
