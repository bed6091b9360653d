adp 1
sign a(token)
rule r = a("y")
grammar r
words
y
