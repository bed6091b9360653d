adp 1
sign a(token)
sign b(score, score)
algebra z min
let a(x) = 0
let b(s, t) = s + t
rule r = b(r1, r1)
rule r1 = b(r2, r2)
rule r2 = b(r3, r3)
rule r3 = b(r4, r4)
rule r4 = b(r5, r5)
rule r5 = b(r6, r6)
rule r6 = b(r7, r7)
rule r7 = b(r8, r8)
rule r8 = b(r9, r9)
rule r9 = b(r10, r10)
rule r10 = b(r11, r11)
rule r11 = b(r12, r12)
rule r12 = b(r13, r13)
rule r13 = b(r14, r14)
rule r14 = b(r15, r15)
rule r15 = b(r16, r16)
rule r16 = a("")
grammar r
words

