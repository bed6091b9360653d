adp 1
# A word is cut into as few palindromes as can be.
class letter = "abcn" 0
sign end(token)
sign cut(score, score)
sign empty(token)
sign middle(token)
sign around(token, score, token)
algebra count min
let end(text) = 0
let cut(first, rest) = 1 + rest
let empty(text) = 0
let middle(letter) = 0
let around(left, within, right) = 0
rule word = end("") | cut(palindrome, word)
rule palindrome = middle([letter]) | around("a", inner, "a") | around("b", inner, "b") | around("c", inner, "c") | around("n", inner, "n")
rule inner = empty("") | middle([letter]) | around("a", inner, "a") | around("b", inner, "b") | around("c", inner, "c") | around("n", inner, "n")
grammar word
words
banana
abacab
