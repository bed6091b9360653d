adp 1
# Words of a sentence get tags: letters stand for words (t the, b big, d dog, r runs, s saw, m man), and each of the four
# states, article, adjective, noun and verb, has a rule. Less likely words and steps cost more.
class article = "t" 0
class adjective = "b" 1 "r" 7
class noun = "d" 1 "m" 1 "s" 4 "r" 5
class verb = "r" 1 "s" 1 "m" 6 "d" 8
sign article(token, score)
sign adjective(token, score)
sign noun(token, score)
sign verb(token, score)
sign end(token)
sign rare(score)
algebra cost min
let article(word, rest) = 1 + word + rest
let adjective(word, rest) = 2 + word + rest
let noun(word, rest) = 1 + word + rest
let verb(word, rest) = 1 + word + rest
let end(nothing) = 0
let rare(rest) = 5 + rest
rule sentence = article([article], behind_article) | noun([noun], behind_noun) | rare(other)
rule other = verb([verb], behind_verb) | adjective([adjective], behind_adjective)
rule behind_article = noun([noun], behind_noun) | adjective([adjective], behind_adjective)
rule behind_adjective = noun([noun], behind_noun) | adjective([adjective], behind_adjective)
rule behind_noun = verb([verb], behind_verb) | end("") | rare(two_nouns)
rule two_nouns = noun([noun], behind_noun)
rule behind_verb = article([article], behind_article) | noun([noun], behind_noun) | end("") | rare(other)
grammar sentence
words
tbdstm
tmsd
rrr
