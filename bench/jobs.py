#!/usr/bin/env python3
"""The jobs that bench/run times: bench/jobs.py NAME [--quick] writes one as a text for `adp`, the same each time.

NAME is one of those that are told where none is.
"""
import itertools
import os
import sys
from typing import NamedTuple

TOP = os.path.dirname(os.path.dirname(os.path.realpath(__file__)))
LETTERS = "abcdefghijklmnopqrstuvwxyz"
MOST_BYTES = 4194304

PAIRS = """adp 1
class any = "pqrs" 0
sign nil(token)
sign skip(token, score)
sign pair(token, score, token, score)
algebra pairs max
let nil(x) = 0
let skip(x, s) = s
let pair(x, s, y, t) = 1 + s + t
rule s = nil("") | skip([any], s) | pair("p", s, "q", s) | pair("r", s, "s", s)
grammar s
"""

THREE = """adp 1
class any = "pqrs" 0
sign nil(token)
sign skip(token, score)
sign join(token, score, score, score)
sign mark(token)
sign both(score, token, score)
algebra most max
let nil(x) = 0
let skip(x, s) = s
let join(x, s, m, t) = 1 + s + m + t
let mark(x) = 1
let both(m, x, n) = 1 + m + n
rule s = nil("") | skip([any], s) | join("p", s, m, s)
rule m = mark("q") | both(m, "r", m)
grammar s
"""

FOUR = """adp 1
class any = "pqrs" 0
sign nil(token)
sign skip(token, score)
sign quad(score, score, score, score)
sign mark(token)
sign both(token, score)
algebra most max
let nil(x) = 0
let skip(x, s) = s
let quad(m, s, n, t) = 1 + m + s + n + t
let mark(x) = 1
let both(x, m) = 1 + m
rule s = nil("") | skip([any], s) | quad(m, s, m, s)
rule m = mark("q") | both([any], m)
grammar s
"""

DEPTH = f"""adp 2
class any = {" ".join(f'"{digit}" {digit}' for digit in range(1, 10))}
sign leaf(token)
sign join(score, token, score)
algebra height min
let leaf(letter) = letter
let join(left, letter, right) = 1 + max(left, right)
rule s = leaf([any]) | join(s, [any], s)
grammar s
"""


class Job(NamedTuple):
    """A job, with the program in C++ that solves it, and what that reads besides words, as the lines of a file."""

    name: str
    program: str
    header: str
    words: list
    table: list | None = None

    def text(self):
        return self.header + "words\n" + self.word_lines()

    def word_lines(self):
        return "".join(word + "\n" for word in self.words)


class Draws:
    """Numbers drawn as `adp big` draws its letters."""

    def __init__(self, seed):
        self.state = seed

    def below(self, bound):
        self.state = (self.state * 6364136223846793005 + 1442695040888963407) % 2**64
        return (self.state >> 32) * bound >> 32

    def word(self, letters, length):
        return "".join(letters[self.below(len(letters))] for _ in range(length))


def drawn_words(name, program, header, letters, count, length):
    draws = Draws(7)
    return Job(name, program, header, [draws.word(letters, length) for _ in range(count)])


def folding_header():
    with open(os.path.join(TOP, "jobs", "folding.adp"), encoding="ascii") as file:
        return file.read().partition("words\n")[0]


def markov(states, length):
    """States with up to 31 steps each, which show twenty letters; 64 of them may come first."""
    draws = Draws(11)
    letters = LETTERS[:20]
    classes = [[10 + draws.below(90) for _ in letters] for _ in range(63)]
    nexts = []
    for _ in range(states):
        others = list(range(states))
        for at in range(states):
            other = at + draws.below(states - at)
            others[at], others[other] = others[other], others[at]
        nexts.append([(draws.below(100), other) for other in others[:31]])
    lines = ["adp 1"]
    lines += [f"class c{at} = " + " ".join(map('"{}" {}'.format, letters, costs)) for at, costs in enumerate(classes)]
    lines += ["sign first(score)", "sign last(token)", *(f"sign step_{cost}(token, score)" for cost in range(100))]
    lines += ["algebra surprise min", "let first(way) = way", "let last(letter) = letter"]
    lines += [f"let step_{cost}(letter, way) = {cost} + letter + way" for cost in range(100)]
    lines.append("rule way = " + " | ".join(f"first(s{state})" for state in range(min(states, 64))))
    table = []
    for state, others in enumerate(nexts):
        shown = state % len(classes)
        alternatives = [f"last([c{shown}])", *(f"step_{cost}([c{shown}], s{other})" for cost, other in others)]
        lines.append(f"rule s{state} = " + " | ".join(alternatives))
        numbers = itertools.chain(classes[shown], ["|"], *others)
        table.append(" ".join(map(str, numbers)))
    lines.append("grammar way\n")
    return Job("markov", "markov", "\n".join(lines), [draws.word(letters, length)], table)


def dictionary(rules, count, length):
    """Words in rules of 62, frequent ones first and at a lower cost, and lines made of them and of other letters."""
    draws, size = Draws(13), 62
    known = {}
    while len(known) < rules * size:
        syllables = [draws.word("bcdfghlmnprstvw", 1) + draws.word("aeiou", 1) for _ in range(1 + draws.below(4))]
        known["".join(syllables) + draws.word("lnrst", draws.below(2))] = None
    known = list(known)
    costs = [4 + min(12, at.bit_length()) for at in range(len(known))]
    lines = ["adp 1", f'class letter = "{LETTERS}" 0', "sign end(token)", "sign entry(score)"]
    lines += ["sign plain(token, score)", "sign further(score)"]
    lines += [f"sign bits_{cost}(token, score)" for cost in range(4, 17)]
    lines += ["algebra bits min", "let end(nothing) = 0", "let entry(rest) = rest"]
    lines += ["let plain(letter, rest) = 20 + rest", "let further(rest) = rest"]
    lines += [f"let bits_{cost}(word, rest) = {cost} + rest" for cost in range(4, 17)]
    lines.append('rule text = end("") | entry(words_0) | plain([letter], text)')
    for rule in range(rules):
        places = range(rule * size, rule * size + size)
        alternatives = [f'bits_{costs[at]}("{known[at]}", text)' for at in places]
        alternatives += [f"further(words_{rule + 1})"] * (rule + 1 < rules)
        lines.append(f"rule words_{rule} = " + " | ".join(alternatives))
    lines.append("grammar text\n")

    def text():
        said = ""
        while len(said) < length:
            said += known[draws.below(draws.below(len(known)) + 1)] if draws.below(20) else draws.word(LETTERS, 1)
        return said[:length]

    table = [f"{cost} {word}" for cost, word in zip(costs, known)]
    return Job("dictionary", "dictionary", "\n".join(lines), [text() for _ in range(count)], table)


def ordinary(count):
    """The ordinary text of tools/hostile: fifty states with twenty words each, and texts that go along them."""
    known = ["".join(it) for it in itertools.product("bcdfgklmnprst", "aeiou", "lmnrst", "aeiou")]

    def step(state, number):
        """One of the twenty words of a state, and the state behind it."""
        return known[(state * 20 + number) % len(known)], (state * 7 + number) % 50

    def text(number):
        state, said = number % 10, ""
        for at in range(15):
            word, state = step(state, number // 10 * 31 % 101 * (at + 1) % 20)
            said += word
        return said

    lines = ["adp 1", "sign a(token)", "sign word(token, score)", "sign go(score)", "algebra z min", "let a(x) = 0"]
    lines += ["let word(x, s) = 2 + s", "let go(s) = s"]
    lines.append("rule r = " + " | ".join(f"go(s{state})" for state in range(10)))
    table = []
    for state in range(50):
        steps = [step(state, number) for number in range(20)]
        lines.append(f'rule s{state} = a("") | ' + " | ".join(map('word("{0[0]}", s{0[1]})'.format, steps)))
        table += [f"{state} {word} {other}" for word, other in steps]
    lines.append("grammar r\n")
    header = "\n".join(lines)
    words = list(map(text, range(count)))
    room = (MOST_BYTES - len(header) - len("words\n")) // (len(words[0]) + 1)
    return Job("ordinary", "ordinary", header, words[:room], table)


def matrices(length):
    """The grammar of jobs/matrices.adp with products in its terms, and a chain of as many matrices."""
    sizes = {"s": 10, "l": 100}
    lines = ["adp 2", "sign all(score)", "sign one(token)"]
    shapes = ["".join(it) for it in itertools.product("sl", repeat=3)]
    lines += [f"sign {shape}(score, score)" for shape in shapes]
    lines += ["algebra multiplications min", "let all(product) = product", "let one(matrix) = 0"]
    for shape in shapes:
        price = "*".join(str(sizes[size]) for size in shape)
        lines.append(f"let {shape}(left, right) = left + right + {price}")
    lines.append("rule product = all(ss) | all(sl) | all(ls) | all(ll)")
    letters = dict(zip(["ss", "sl", "ls", "ll"], "abcd"))
    for (one, other), letter in letters.items():
        products = [f"{one}{middle}{other}({one}{middle}, {middle}{other})" for middle in "sl"]
        lines.append(f'rule {one}{other} = one("{letter}") | ' + " | ".join(products))
    lines.append("grammar product\n")
    drawn = Draws(7).word("sl", length + 1)
    word = "".join(letters[drawn[at : at + 2]] for at in range(length))
    return Job("matrices", "matrices", "\n".join(lines), [word])


def jobs(is_quick):
    """All jobs, by their names; quick ones are small."""
    def size(small, large):
        return small if is_quick else large
    made = [
        drawn_words("pairs", "pairs", PAIRS, "pqrs", 1, size(100, 1000)),
        drawn_words("pairs-long", "pairs", PAIRS, "pqrs", 1, size(200, 2046)),
        drawn_words("pairs-words", "pairs", PAIRS, "pqrs", size(5, 200), size(60, 300)),
        drawn_words("pairs-short", "pairs", PAIRS, "pqrs", size(100, 65536), 10),
        drawn_words("folding", "folding", folding_header(), "acgu", 1, size(100, 500)),
        drawn_words("nussinov", "nussinov", folding_header(), "acgu", 1, size(100, 500)),
        markov(size(16, 126), size(100, 4000)),
        dictionary(size(4, 126), size(10, 1000), 60),
        ordinary(size(100, 65000)),
        drawn_words("three", "three", THREE, "pqrs", 1, size(60, 200)),
        drawn_words("four", "four", FOUR, "pqrs", 1, size(40, 100)),
        matrices(size(60, 600)),
        drawn_words("depth", "depth", DEPTH, "123456789", 1, size(61, 1001)),
    ]
    return {job.name: job for job in made}


def main():
    known = jobs("--quick" in sys.argv[1:])
    names = [word for word in sys.argv[1:] if word != "--quick"]
    if len(names) != 1 or names[0] not in known:
        sys.exit(f"usage: bench/jobs.py NAME [--quick]   of {', '.join(known)}")
    sys.stdout.write(known[names[0]].text())


if __name__ == "__main__":
    main()
