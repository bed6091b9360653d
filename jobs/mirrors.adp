adp 1
# A word is parted into palindromes: each costs 5, and 1 less for each pair of equal letters; a single letter costs 6.
class letter = "abc" 0
sign end(token)
sign part(score, score)
sign single(token, score)
sign pair(token, score, token)
sign middle(token)
algebra cost min
let end(nothing) = 0
let part(palindrome, rest) = 5 + palindrome + rest
let single(letter, rest) = 6 + rest
let pair(left, within, right) = -1 + within
let middle(letters) = 0
rule word = end("") | part(palindrome, word) | single([letter], word)
rule palindrome = pair("a", within, "a") | pair("b", within, "b") | pair("c", within, "c")
rule within = middle("") | middle([letter]) | pair("a", within, "a") | pair("b", within, "b") | pair("c", within, "c")
grammar word
words
abacabb
abcba
abc
