adp 3
sign end(token)
sign both(score, score)
algebra cost min
let end(nothing) = 0
let both(left, right) = left + right
rule k = both(both(l, l), both(l, l))
rule l = both(both(m, m), both(m, m))
rule m = both(both(n, n), both(n, n))
rule n = both(both(o, o), both(o, o))
rule o = both(both(p, p), both(p, p))
rule p = both(both(q, q), both(q, q))
rule q = both(both(r, r), both(r, r))
rule r = both(both(s, s), both(s, s))
rule s = both(both(t, t), both(t, t))
rule t = both(both(u, u), both(u, u))
rule u = both(both(v, v), both(v, v))
rule v = end("")
grammar k
words

