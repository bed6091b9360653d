adp 1
sign end(token)
sign two(score, score)
algebra count max
let end(text) = 1
let two(left, right) = left + right
rule r0 = two(r1, r1)
rule r1 = two(r2, r2)
rule r2 = two(r3, r3)
rule r3 = two(r4, r4)
rule r4 = two(r5, r5)
rule r5 = two(r6, r6)
rule r6 = two(r7, r7)
rule r7 = two(r8, r8)
rule r8 = two(r9, r9)
rule r9 = two(r10, r10)
rule r10 = two(r11, r11)
rule r11 = two(r12, r12)
rule r12 = two(r13, r13)
rule r13 = two(r14, r14)
rule r14 = two(r15, r15)
rule r15 = two(r16, r16)
rule r16 = two(r17, r17)
rule r17 = two(r18, r18)
rule r18 = two(r19, r19)
rule r19 = two(r20, r20)
rule r20 = two(r21, r21)
rule r21 = end("")
grammar r0
words

