adp 1
# Names and numbers, each as long as can be: fewer tokens are better.
class letter = "abcdefghijklmnopqrstuvwxyz" 0
class digit = "0123456789" 0
class blank = " " 0
sign end(token)
sign name(token, score)
sign number(token, score)
sign space(token, score)
algebra count min
let end(text) = 0
let name(letters, rest) = 1 + rest
let number(digits, rest) = 1 + rest
let space(blanks, rest) = rest
rule line = end("") | name([letter 1..], line) | number([digit 1..], line) | space([blank 1..], line)
grammar line
words
let  x12 5
