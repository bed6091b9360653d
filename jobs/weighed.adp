adp 1
# A run is worth the weights of its letters: the best part of a row of gains and losses.
class gain = "a" 3 "b" -2 "c" 5 "d" -4
sign part(token, score)
sign left(token, score)
sign right(token)
sign take(token)
algebra sum max
let part(skipped, rest) = rest
let left(run, rest) = run + rest
let right(skipped) = 0
let take(run) = run
rule row = part([gain 0..], best)
rule best = left([gain 1..], tail)
rule tail = right([gain 0..])
grammar row
words
abdcbad
