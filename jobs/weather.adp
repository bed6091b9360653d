adp 1
# A diary has w for a walk, s for shopping and c for cleaning; the likeliest weather of its days is wanted. What happens
# with probability p costs ten times the logarithm of 1/p to the base 2. A sunny day has w 6/10, s 3/10 and c 1/10,
# a rainy one w 1/10, s 4/10 and c 5/10; the weather stays as it is with 7/10.
class sunny = "w" 7 "s" 17 "c" 33
class rainy = "w" 33 "s" 13 "c" 10
sign first(score)
sign sun(token, score)
sign rain(token, score)
sign turn_to_rain(token, score)
sign turn_to_sun(token, score)
sign last(token)
algebra surprise min
let first(days) = 10 + days
let sun(day, rest) = 5 + day + rest
let rain(day, rest) = 5 + day + rest
let turn_to_rain(day, rest) = 17 + day + rest
let turn_to_sun(day, rest) = 17 + day + rest
let last(day) = day
rule week = first(in_sun) | first(in_rain)
rule in_sun = sun([sunny], in_sun) | turn_to_rain([sunny], in_rain) | last([sunny])
rule in_rain = rain([rainy], in_rain) | turn_to_sun([rainy], in_sun) | last([rainy])
grammar week
words
wwscccw
