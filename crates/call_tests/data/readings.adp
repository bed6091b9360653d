adp 1
class any = "abcdefghijklmnopqrstuvwxyz" 0
sign end(token)
sign long(token, score)
sign short(token, score)
sign rare(token, score)
sign other(token, score)
algebra cost min
let end(x1) = 0
let long(x1, x2) = 4 + 1*x2
let short(x1, x2) = 2 + 1*x2
let rare(x1, x2) = 3 + 1*x2
let other(x1, x2) = 9 + 1*x2
algebra pieces min
let end(x1) = 0
let long(x1, x2) = 1 + 1*x2
let short(x1, x2) = 1 + 1*x2
let rare(x1, x2) = 1 + 1*x2
let other(x1, x2) = 1 + 1*x2
rule line = end("") | long("there", line) | short("the", line) | rare("red", line) | other([any], line)
grammar line
words
thered
