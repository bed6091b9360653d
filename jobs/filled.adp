adp 2
# A text is broken into lines of 8 to 14 letters, words and single spaces between them; the last line may be shorter. The
# shortest of the lines before it is as long as can be.
class letter = "abcdefghijklmnopqrstuvwxyz" 1
sign word(token)
sign words(token, token, score)
sign last(score)
sign line(score, token, score)
algebra shortest max
let word(letters) = letters
let words(letters, space, others) = letters + 1 + others
let last(words) = 14
let line(words, space, lines) = min(words, lines)
rule text = last(words) with size 1..14 | line(full, " ", text)
rule full = word([letter 1..]) with size 8..14 | words([letter 1..], " ", words) with size 8..14
rule words = word([letter 1..]) | words([letter 1..], " ", words)
grammar text
words
the quick brown fox jumps over the lazy dog
to be or not to be
