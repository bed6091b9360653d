"""Jobs of adp from Python: `solve` runs the program, and gives its reports as objects; `solve_many` asks any number of
words, in runs side by side; `solve_big` needs no job.

    from adp import solve

    for report in solve(open("jobs/bar.adp").read(), words=["xxxx"]):
        print(report.score, report.tree)

    reports = solve(
        signs={"end": ["token"], "put": ["token", "score"]},
        classes={"any": {"ab": 1, "c": 2}},
        algebras={"cost": ("min", {"end(x)": "0", "put(letter, rest)": "3*letter + rest"})},
        rules={"row": ['end("")', "put([any], row)"]},
        words=["abc", ""],
    )

The file stands alone, beside the launcher `adp` or anywhere: the program is found by the argument `program`, by the
variable ADP, with this file, above it, or on the PATH; `python -m adp` runs the command. Trees may be thousands of
nodes deep, so nothing here is recursive: they are written, compared, copied and pickled at any depth.
"""
from __future__ import annotations

import os
import platform
import re
import shutil
import subprocess
import sys
from collections import Counter, deque
from collections.abc import Iterable, Iterator, Mapping, Sequence
from concurrent.futures import Future, ThreadPoolExecutor
from dataclasses import dataclass, field
from functools import cached_property
from itertools import chain
from typing import Any, Union

__version__ = "1.3"
__all__ = ["Candidate", "Fault", "Job", "Malformed", "Node", "Place", "Report", "find_program", "letter_parts", "named",
           "places", "quoted", "read_reports", "read_tree", "record_of", "solve", "solve_big", "solve_many",
           "write_job"]

# (by the mode `lex` the scores of two algebras)
Score = Union[int, "tuple[int, ...]"]

_PART = re.compile(r'([A-Za-z]\w*)\(|"((?:[^"\\]|\\.)*)"|([),])')
_WORDS_LINE = re.compile(r"^ *words *\r?$", re.M)
_SHOWN = 200
# The statuses of runs that were refused before anything was solved.
_REFUSALS = (2, 5, 6, 7, 10)
# One run has at most so many words, and so many bytes with the job.
_MOST_WORDS, _MOST_BYTES = 65536, 4194304
# The options of each mode, and of the options that are numbers the least and the greatest.
_MODES = {"best": "algebra workers seed", "serial": "algebra workers seed", "wins": "algebra workers seed",
          "replay": "algebra workers seed schedule", "lex": "algebra then workers seed", "kbest": "algebra best"}
_NEEDED = {"replay": "schedule", "lex": "then", "kbest": "best"}
_RANGES = {"workers": (1, 32), "seed": (0, 2**64 - 1), "best": (1, 64), "size": (1, 2046)}


class Fault(Exception):
    """A run that gave no reports, or not all of them: its line, as `fault text line 3 kind 15`, and its status. As a
    text it tells its cause too, where `explanation` has one."""

    def __init__(self, line: str, status: int, run: tuple[list[str], str] | None = None, before: int = 0) -> None:
        super().__init__(line or f"status {status}")
        self.line, self.status, self._run, self._before = line, status, run, before

    def __reduce__(self) -> tuple[Any, ...]:
        return Fault, (self.line, self.status, self._run, self._before)

    def __str__(self) -> str:
        return f"{self.args[0]}: {self.cause}" if self.cause else str(self.args[0])

    @property
    def word(self) -> int | None:
        """The number of the word that is at fault, in the whole of what `solve_many` was asked; None where it is
        another fault."""
        found = re.match(r"fault limit word (\d+)", self.line)
        if found:
            return self._before + int(found[1])
        found = re.match(r"fault text line (\d+)", self.line)
        behind = 0 if found is None or self._run is None else int(found[1]) - _header_lines(self._run[1])
        return self._before + behind if behind > 0 else None

    @property
    def cause(self) -> str:
        """What is wrong, in a sentence or two, as `explanation` has it; empty where that is."""
        said, _, prose = self.explanation.partition("docs/FAULTS.md:\n")
        # (without lines of the job, and what only leads to them)
        lines = [line for line in said.splitlines()[:-1] if not re.search(r"^ *\d* \| |:$", line)]
        text = " ".join("\n".join(lines).split("\n\n")[0].split())
        return text or " ".join(prose.split()).split(". ")[0]

    @cached_property
    def explanation(self) -> str:
        """What `adp --explain` tells of it; empty where no launcher is there to tell. It runs the job once more, to
        where it is refused."""
        if self._run is None or self.status not in _REFUSALS:
            return ""
        (program, *words), text = self._run
        for launcher in dict.fromkeys([program, *_launchers()]):
            try:
                ran = subprocess.run([launcher, "--explain", *words], input=_bytes_of(text), capture_output=True,
                                     check=False)
            except OSError:
                continue
            lines = ran.stderr.decode(errors="replace").splitlines()
            if lines and self.line in lines and lines[-1] != self.line:
                return "\n".join(lines[lines.index(self.line) + 1 :]).strip("\n")
        return ""


class Malformed(ValueError):
    """What was read is no report, or not those of all words."""


@dataclass(eq=False, repr=False)
class Node:
    """A node of a tree: a sign, and its parts in order, each a node or the letters of a leaf. Nodes are equal where
    their trees are; they can be changed, and so have no hash."""

    sign: str
    parts: list[Node | str] = field(default_factory=list)
    __hash__ = None  # type: ignore[assignment]

    def preorder(self) -> Iterator[Node]:
        """All nodes from this one on, each before what is below it."""
        waiting = [self]
        while waiting:
            node = waiting.pop()
            yield node
            waiting.extend(part for part in reversed(node.parts) if isinstance(part, Node))

    def letters(self) -> str:
        """The letters that the node covers."""
        found, waiting = [], [self]  # type: tuple[list[str], list[Node | str]]
        while waiting:
            part = waiting.pop()
            if isinstance(part, Node):
                waiting.extend(reversed(part.parts))
            else:
                found.append(part)
        return "".join(found)

    def _pieces(self) -> Iterator[str]:
        """The tree as the program writes it, piece by piece."""
        waiting: list[Node | str] = [self]
        while waiting:
            part = waiting.pop()
            if isinstance(part, Node):
                yield part.sign + "("
                waiting.append(_Mark(")"))
                for place, child in enumerate(reversed(part.parts)):
                    waiting += [_Mark(",")] * (place > 0) + [child]
            else:
                yield part if isinstance(part, _Mark) else quoted(part)

    def __str__(self) -> str:
        """The tree as the program writes it."""
        return "".join(self._pieces())

    def __repr__(self) -> str:
        """The front of that."""
        said, length = [], 0
        for piece in self._pieces():
            said.append(piece)
            length += len(piece)
            if length > _SHOWN:
                return "".join(said)[:_SHOWN] + ".."
        return "".join(said)

    def __eq__(self, other: object) -> bool:
        if not isinstance(other, Node):
            return NotImplemented
        waiting: list[tuple[Any, Any]] = [(self, other)]
        while waiting:
            one, two = waiting.pop()
            if one is two:
                continue
            if not (isinstance(one, Node) and isinstance(two, Node)):
                if isinstance(one, Node) or isinstance(two, Node) or one != two:
                    return False
                continue
            if one.sign != two.sign or len(one.parts) != len(two.parts):
                return False
            waiting.extend(zip(one.parts, two.parts))
        return True

    def __reduce__(self) -> tuple[Any, ...]:
        """A tree is copied and pickled as its text, at any depth."""
        return read_tree, (str(self),)


class _Mark(str):
    """A bracket or a comma among the parts of a tree that is written."""


@dataclass
class Candidate:
    """A tree of a list, and its score; two scores where `tools/two-wishes` took them apart."""

    score: Score
    tree: Node


@dataclass
class Report:
    """What is said of a word: its number, from 1; the best score and the first tree of it, or None; its cells; by the
    modes `wins` and `replay` how many answers each evaluator put into the table; by `kbest`, which tells no cells, the
    first trees with their scores, in order; and by `tools/spread` why a word was refused. By `lex` the score is a pair,
    that of the first algebra and that of the second. Who knows names of the words can add them (see `named`)."""

    word: int
    score: Score | None
    tree: Node | None
    cells: int
    wins: list[int] | None = None
    refused: str | None = None
    listed: list[Candidate] | None = None
    name: str | None = None

    def rows(self) -> list[dict[str, Any]]:
        """The report as rows of a table, one for each tree, or one for a word without any: its name, where it has one,
        its number, the rank of the tree, its score (by `lex` `score` and `then`), the cells, how often each sign stands
        in the tree, as `count_SIGN`, and the tree as the program writes it. So `pandas.DataFrame` takes them."""
        found: list[tuple[Score | None, Node | None]] = [(self.score, self.tree)]
        if self.listed:
            found = [(it.score, it.tree) for it in self.listed]
        return [self._row(rank, score, tree) for rank, (score, tree) in enumerate(found, 1)]

    def _row(self, rank: int, score: Score | None, tree: Node | None) -> dict[str, Any]:
        row: dict[str, Any] = {} if self.name is None else {"name": self.name}
        row |= {"word": self.word, "rank": None if tree is None else rank}
        row |= {"score": score[0], "then": score[1]} if isinstance(score, tuple) else {"score": score}
        row["cells"] = self.cells if self.listed is None and self.refused is None else None
        if self.refused is not None:
            row["refused"] = self.refused
        signs = Counter(() if tree is None else (node.sign for node in tree.preorder()))
        return row | {f"count_{sign}": count for sign, count in signs.items()} | {"tree": tree and str(tree)}


@dataclass
class Place:
    """Where a node stands: the number of its parent, its depth, and the letters that it covers, from 0."""

    node: Node
    parent: int | None
    depth: int
    start: int
    end: int


def places(tree: Node) -> list[Place]:
    """Where all nodes of a tree stand, in preorder; parents are told by their numbers in this list."""
    found: list[Place] = []
    waiting: list[tuple[Any, int | None, int]] = [(tree, None, 0)]
    at = 0
    while waiting:
        part, parent, depth = waiting.pop()
        if isinstance(part, Node):
            waiting.append((len(found), None, 0))
            waiting.extend((child, len(found), depth + 1) for child in reversed(part.parts))
            found.append(Place(part, parent, depth, at, at))
        elif isinstance(part, str):
            at += len(part)
        else:
            found[part].end = at
    return found


def letter_parts(found: Sequence[Place]) -> list[list[tuple[int, int, int]]]:
    """Of each node, as `places` tells them, the parts that are letters and not empty: the place of each among the
    parts, and where in the word it begins and ends."""
    ends: list[list[int]] = [[] for _ in found]
    for place in found[1:]:
        ends[place.parent or 0].append(place.end)
    told: list[list[tuple[int, int, int]]] = []
    for place, below in zip(found, map(iter, ends)):
        at, own = place.start, []
        for number, part in enumerate(place.node.parts):
            end = next(below) if isinstance(part, Node) else at + len(part)
            if isinstance(part, str) and part:
                own.append((number, at, end))
            at = end
        told.append(own)
    return told


def quoted(letters: str) -> str:
    """Letters as a quoted text of a job."""
    return '"' + letters.replace("\\", "\\\\").replace('"', '\\"') + '"'


def read_tree(text: str) -> Node:
    """The tree of a text, as it stands behind `tree `."""
    top = Node("")
    open_nodes, at, is_due = [top], 0, True
    while at < len(text):
        found = _PART.match(text, at)
        name, letters, mark = found.groups() if found else (None, None, None)
        if not found or is_due != (mark is None) or (len(open_nodes) == 1 and (mark or letters is not None)):
            raise Malformed(f"no tree, from character {at + 1} on: {text[at:at + 40]!r}")
        at = found.end()
        if name:
            open_nodes.append(Node(name))
            open_nodes[-2].parts.append(open_nodes[-1])
        elif mark == ")":
            open_nodes.pop()
        elif letters is not None:
            open_nodes[-1].parts.append(re.sub(r"\\(.)", r"\1", letters))
        is_due = bool(name) or mark == ","
    if len(open_nodes) != 1 or len(top.parts) != 1:
        raise Malformed("the tree does not end")
    (tree,) = top.parts
    assert isinstance(tree, Node)
    return tree


def _numbers(text: str) -> list[int]:
    return [int(number) for number in text.split(" ")]


def read_reports(text: str | Iterable[str]) -> Iterator[Report]:
    """The reports of what the program wrote, one after the other: of a text, or of its lines as a file gives them."""
    split = text.splitlines() if isinstance(text, str) else (line.rstrip("\r\n") for line in text)
    lines: Iterator[str | None] = chain(split, [None])

    def behind(front: str, line: str | None) -> str:
        if line is None or not line.startswith(front + " "):
            raise Malformed(f"no report: {front!r} should stand where {str(line)[:60]!r} does")
        return line[len(front) + 1 :]

    line = next(lines, None)
    while line is not None:
        word, second = int(behind("word", line)), next(lines, None)
        if second is not None and second.startswith("refused "):
            yield Report(word, None, None, 0, refused=behind("refused", second))
            line = next(lines, None)
            continue
        found: list[tuple[Score, Node]] = []
        while second is not None and second.startswith("score "):
            numbers = _numbers(behind("score", second))
            if len(numbers) > 2:
                raise Malformed(f"a score has one number, or two, and not {second!r}")
            score = numbers[0] if len(numbers) == 1 else tuple(numbers)
            found.append((score, read_tree(behind("tree", next(lines, None)))))
            second = next(lines, None)
        if second is not None and second.startswith("listed "):
            yield _list_of(word, found, int(behind("listed", second)))
            line = next(lines, None)
            continue
        if not found:
            if second != "none":
                behind("score", second)
            second = next(lines, None)
        score, tree = found[0] if len(found) == 1 else (None, None)
        wins = None
        cells, line = int(behind("cells" if len(found) < 2 else "listed", second)), next(lines, None)
        if line is not None and line.startswith("wins"):
            wins, line = _numbers(behind("wins", line)), next(lines, None)
        yield Report(word, score, tree, cells, wins)


def _list_of(word: int, found: Sequence[tuple[Score, Node]], count: int) -> Report:
    """The report of a word whose first trees are listed."""
    listed = [Candidate(score, tree) for score, tree in found]
    if count != len(found):
        raise Malformed(f"word {word}: {len(found)} trees stand there, and {count} are told")
    first = listed[0] if listed else None
    return Report(word, first and first.score, first and first.tree, 0, listed=listed)


def named(reports: Iterable[Report], names: Iterable[str]) -> Iterator[Report]:
    """Reports with the names of their words, in order, of which there have to be as many."""
    waiting, last = iter(names), None
    for report in reports:
        if last is not None and report.word != last + 1:
            raise Malformed(f"the reports go on with word {report.word}, where word {last + 1} should be")
        last = report.word
        report.name = next(waiting, None)
        if report.name is None:
            raise Malformed(f"there are more reports than names, from word {report.word} on: has the job words of its "
                            "own? (--only-words leaves them out)")
        yield report
    if next(waiting, None) is not None:
        raise Malformed("there are fewer reports than names")


def record_of(report: Report, scores: Sequence[Any] | None = None) -> dict[str, Any]:
    """A report as an object that is not nested, for JSON: the letters that the tree covers, and its nodes in preorder.
    Each tells its sign, the positions where it begins and ends, its parent's number among the nodes, its depth, its
    score where these are given, and its parts: letters, or the number of a node. Of a list each tree is told so; its
    scores are a list for each tree."""
    record: dict[str, Any] = {"word": report.word} if report.name is None else {"word": report.word, "name": report.name}
    if report.refused is not None:
        return record | {"refused": report.refused}
    if report.listed is not None:
        of_each = scores if scores is not None else [None] * len(report.listed)
        listed = [{"score": it.score} | _record_of_tree(it.tree, own) for it, own in zip(report.listed, of_each)]
        return record | {"listed": listed}
    record |= {"score": report.score, "cells": report.cells}
    if report.wins is not None:
        record["wins"] = report.wins
    if report.tree is None:
        return record | {"letters": None, "nodes": None}
    return record | _record_of_tree(report.tree, scores)


def _record_of_tree(tree: Node, scores: Sequence[Score] | None) -> dict[str, Any]:
    """The letters and the nodes of a tree."""
    found = places(tree)
    nodes = [{"sign": it.node.sign, "from": it.start, "to": it.end, "parent": it.parent, "depth": it.depth}
             for it in found]
    parts: list[list[Any]] = [[part if isinstance(part, str) else None for part in it.node.parts] for it in found]
    for number, it in enumerate(found):
        if it.parent is not None:
            parts[it.parent][parts[it.parent].index(None)] = number
    for number, node in enumerate(nodes):
        if scores is not None:
            node["score"] = scores[number]
        node["parts"] = parts[number]
    return {"letters": tree.letters(), "nodes": nodes}


# ---- Jobs

_TOKEN = re.compile(r' *(?:(\w+)|"((?:[^"\\]|\\.)*)"|(\.\.|[=(),\[\]|+*-]))')
# What the first format takes as a term, and a size behind an alternative, which it does not take.
_PART_OF_SUM = r" *(?:[0-9]+ *\* *)?\w+ *"
_SUM = re.compile(rf" *-?{_PART_OF_SUM}(?:[+-]{_PART_OF_SUM})*")
_SIZE = re.compile(r"\) *with +size\b[^\")]*$")
# (what binds more tightly has the greater number; brackets and functions are no operations)
_TIGHTNESS = {"+": 1, "-": 1, "*": 2}

# The steps of a term, its sides before each operation: a number, the value of the argument of a number, an operation.
Steps = list["tuple[str, int]"]


def _steps(words: Sequence[str], variables: Sequence[str]) -> Steps:
    """The steps of a term of either format."""
    steps: Steps = []
    waiting: list[str] = []

    def reduce(least: int) -> None:
        while waiting and _TIGHTNESS.get(waiting[-1], 0) >= max(least, 1):
            steps.append((waiting.pop(), 0))

    is_first = True
    for word, behind in zip(words, [*words[1:], ""]):
        if word == "-" and is_first:
            steps.append(("number", 0))
            waiting.append("-")
        elif word in _TIGHTNESS:
            reduce(_TIGHTNESS[word])
            waiting.append(word)
        elif word == "(" or (word in ("max", "min") and behind == "("):
            waiting.append(word)
        elif word in (",", ")"):
            reduce(0)
            if word == ")":
                waiting.pop()
                if waiting and waiting[-1] in ("max", "min"):
                    steps.append((waiting.pop(), 0))
        else:
            steps.append(("number", int(word)) if word.isdigit() else ("value", variables.index(word)))
        is_first = word in ("(", ",")
    reduce(0)
    return steps


def worth_of(steps: Steps, values: Sequence[int]) -> int:
    """What a term is worth at the values of its arguments."""
    known: list[int] = []
    for what, number in steps:
        if what in ("number", "value"):
            known.append(number if what == "number" else values[number])
            continue
        right = known.pop()
        left = known.pop()
        known.append({"+": left + right, "-": left - right, "*": left * right, "max": max(left, right),
                      "min": min(left, right)}[what])
    (worth,) = known
    return worth


@dataclass
class Argument:
    """An argument of an alternative: a rule, a literal, or letters of a class in a number between two bounds."""

    rule: str | None = None
    literal: str | None = None
    letters: str = ""
    low: int = 1
    high: int | None = 1

    def is_spelled(self, or_one_letter: bool) -> bool:
        """Whether it is a literal, or, where that is asked for, one letter of a class."""
        return self.literal is not None or (or_one_letter and self.rule is None and self.low == self.high == 1)


@dataclass
class Alternative:
    """An alternative of a rule: its sign, its arguments, and how many letters it may cover."""

    rule: str
    sign: str
    arguments: list[Argument]
    low: int = 0
    high: int | None = None


class Job:
    """A job that the program accepts, read so that it tells the scores of a tree's nodes. Of a job with a fault nothing
    is promised but that `Malformed` may be raised."""

    def __init__(self, text: str) -> None:
        self.axiom = ""
        self.words = _words_of(text)
        self.rules: dict[str, list[Alternative]] = {}
        self.classes: dict[str, dict[str, int]] = {}
        self.terms: dict[str, dict[str, Steps]] = {}
        self.is_least: dict[str, bool] = {}
        self._by_sign: dict[str, list[Alternative]] = {}
        self._hidden_rules = 0
        readers = {"class": self._read_class, "algebra": self._read_algebra, "let": self._read_let,
                   "rule": self._read_rule, "grammar": self._read_grammar}
        header = text[: found.start()] if (found := _WORDS_LINE.search(text, text.find("\n") + 1)) else text
        for line in header.split("\n")[1:]:
            tokens = [] if line.startswith("#") else self._tokens(line.rstrip("\r"))
            if tokens and tokens[0][0] in readers:
                try:
                    readers[tokens[0][0]](tokens)
                except (IndexError, KeyError, ValueError) as error:
                    raise Malformed(f"this line of the job cannot be read: {line[:60]!r}") from error
        if not self.axiom or not self.terms:
            raise Malformed("this is no job: no line says its grammar, or no algebra")

    @property
    def algebras(self) -> list[str]:
        """The names of the algebras, in order."""
        return list(self.terms)

    @property
    def signs(self) -> list[str]:
        """The names of the signs, as the first algebra has them."""
        return list(next(iter(self.terms.values())))

    @staticmethod
    def _tokens(line: str) -> list[tuple[str, bool]]:
        """Words, marks and quoted texts, which are told apart."""
        found = []
        for match in _TOKEN.finditer(line):
            word, literal, mark = match.groups()
            found.append((re.sub(r"\\(.)", r"\1", literal), True) if literal is not None else (word or mark, False))
        return found

    def _read_class(self, tokens: list[tuple[str, bool]]) -> None:
        weights = self.classes.setdefault(tokens[1][0], {})
        at = 3
        while at < len(tokens):
            is_less = tokens[at + 1][0] == "-"
            weight = int(tokens[at + 1 + is_less][0])
            weights.update((letter, -weight if is_less else weight) for letter in tokens[at][0])
            at += 2 + is_less

    def _read_algebra(self, tokens: list[tuple[str, bool]]) -> None:
        self.terms[tokens[1][0]] = {}
        self.is_least[tokens[1][0]] = tokens[2][0] == "min"

    def _read_let(self, tokens: list[tuple[str, bool]]) -> None:
        words = [text for text, _ in tokens]
        close = words.index(")")
        variables = [word for word in words[3:close] if word != ","]
        next(reversed(self.terms.values()))[words[1]] = _steps(words[close + 2 :], variables)

    def _read_rule(self, tokens: list[tuple[str, bool]]) -> None:
        at = 3
        while at < len(tokens):
            alternative, at = self._read_alternative(tokens, at)
            if tokens[at : at + 1] == [("with", False)]:
                at = self._read_size(tokens, at + 2, alternative)
            at += 1

    def _read_alternative(self, tokens: list[tuple[str, bool]], at: int) -> tuple[Alternative, int]:
        """An alternative from a place of the tokens on, and the place behind it. One that stands as an argument is that
        of a hidden rule."""
        whole = self._added(tokens[1][0], tokens[at][0])
        unfinished = [whole]
        at += 2
        while unfinished:
            if tokens[at + 1] == ("(", False):
                self._hidden_rules += 1
                inner = self._added(f"h_{self._hidden_rules}", tokens[at][0])
                unfinished[-1].arguments.append(Argument(rule=inner.rule))
                unfinished.append(inner)
                at += 2
                continue
            argument, at = self._argument(tokens, at)
            unfinished[-1].arguments.append(argument)
            while unfinished and tokens[at] == (")", False):
                unfinished.pop()
                at += 1
            # (a comma)
            at += bool(unfinished)
        return whole, at

    def _added(self, rule: str, sign: str) -> Alternative:
        alternative = Alternative(rule, sign, [])
        self._by_sign.setdefault(sign, []).append(alternative)
        self.rules.setdefault(rule, []).append(alternative)
        return alternative

    @staticmethod
    def _read_size(tokens: list[tuple[str, bool]], at: int, alternative: Alternative) -> int:
        alternative.low = int(tokens[at][0])
        if at + 2 >= len(tokens) or tokens[at + 2][0] == "|":
            return at + 2
        alternative.high = int(tokens[at + 2][0])
        return at + 3

    def _read_grammar(self, tokens: list[tuple[str, bool]]) -> None:
        self.axiom = tokens[1][0]

    @staticmethod
    def _argument(tokens: list[tuple[str, bool]], at: int) -> tuple[Argument, int]:
        text, is_quoted = tokens[at]
        if is_quoted:
            return Argument(literal=text), at + 1
        if text != "[":
            return Argument(rule=text), at + 1
        close = tokens.index(("]", False), at)
        name, *bounds = (word for word, _ in tokens[at + 1 : close])
        if not bounds:
            return Argument(letters=name), close + 1
        return Argument(letters=name, low=int(bounds[0]), high=int(bounds[2]) if len(bounds) > 2 else None), close + 1

    def _worth(self, letters: str, argument: Argument) -> int | None:
        """What letters are worth as an argument; nothing where they do not match."""
        if argument.literal is not None:
            return 0 if letters == argument.literal else None
        weights = self.classes.get(argument.letters)
        if weights is None or len(letters) < argument.low or (argument.high or len(letters)) < len(letters):
            return None
        found = [weights.get(letter) for letter in letters]
        return None if None in found else sum(weight for weight in found if weight is not None)

    def _value(self, place: list[Any], arguments: list[Argument], term: Steps, at: int) -> int | None:
        """The score of a node in one of the algebras, from those of its parts."""
        values = []
        for part, argument in zip(place, arguments):
            if isinstance(part, str):
                value = self._worth(part, argument)
            else:
                best = part.get(argument.rule)
                value = None if best is None else best[0][at]
            if value is None:
                return None
            values.append(value)
        return worth_of(term, values)

    def scores(self, tree: Node, *algebras: str) -> list[Score] | None:
        """The score of each node of a tree, in preorder, by an algebra (the first one, where none is named), or by
        several of which the later ones judge what is equal by those before; None where the job derives no such tree.
        """
        found = self._derivation(tree, algebras)
        return None if found is None else [it if len(it) > 1 else it[0] for it, _ in found]

    def pairs(self, tree: Node, *algebras: str, signs: Iterable[str] = (),
              without: Iterable[str] = ()) -> list[tuple[int, int]] | None:
        """The places of the letters that nodes pair, from 0; None where the job derives no such tree, by an algebra
        (the first one, where none is named). A node pairs its first letters with its last ones where its rule spells
        both and they are equally many; where `signs` are named those alone do, and a letter of a class is paired as a
        letter is that the rule spells. Signs of `without` pair nothing."""
        named, left_out = set(signs), set(without)
        unknown = (named | left_out).difference(self.signs)
        if unknown:
            raise Malformed(f"the job has no sign {min(unknown)}")
        derived = self._derivation(tree, algebras)
        if derived is None:
            return None
        found: list[tuple[int, int]] = []
        stands = places(tree)
        for it, own, (_, arguments) in zip(stands, letter_parts(stands), derived):
            if it.node.sign in left_out or (named and it.node.sign not in named) or len(own) < 2:
                continue
            (first, start, end), (last, back, behind) = own[0], own[-1]
            is_spelled = all(arguments[at].is_spelled(bool(named)) for at in (first, last))
            if is_spelled and end - start == behind - back:
                found += zip(range(start, end), range(behind - 1, back - 1, -1))
        return found

    def _derivation(self, tree: Node,
                    algebras: tuple[str, ...]) -> list[tuple[tuple[int, ...], list[Argument]]] | None:
        """Of each node of a tree, in preorder, its scores and the arguments of its alternative."""
        names = algebras or (self.algebras[0],)
        for name in names:
            if name not in self.terms:
                raise Malformed(f"the job has no algebra {name}")
        stands = places(tree)
        nodes = [it.node for it in stands]
        number = {id(node): at for at, node in enumerate(nodes)}
        # of each node its best scores under each rule that derives it, with the alternative's arguments
        best: list[dict[str, tuple[tuple[int, ...], list[Argument]]]] = [{} for _ in nodes]
        for at in range(len(nodes) - 1, -1, -1):
            node = nodes[at]
            parts = [part if isinstance(part, str) else best[number[id(part)]] for part in node.parts]
            length = stands[at].end - stands[at].start
            for alternative in self._by_sign.get(node.sign, []):
                rule, arguments, most = alternative.rule, alternative.arguments, alternative.high
                if len(arguments) != len(parts) or length < alternative.low or (most is not None and most < length):
                    continue
                values = [self._value(parts, arguments, self.terms[name][node.sign], place)
                          for place, name in enumerate(names)]
                if None in values:
                    continue
                found = tuple(value for value in values if value is not None)
                known = best[at].get(rule)
                if known is None or self._order(names, found) < self._order(names, known[0]):
                    best[at][rule] = found, arguments
        return self._told(nodes, number, best)

    def is_better(self, one: Score, other: Score, *algebras: str) -> bool:
        """Whether a score is better than another one, by an algebra (the first one, where none is named), or by several
        of which the later ones judge what is equal by those before."""
        names = algebras or (self.algebras[0],)
        pair = [it if isinstance(it, tuple) else (it,) for it in (one, other)]
        return self._order(names, pair[0]) < self._order(names, pair[1])

    def _order(self, names: Sequence[str], values: tuple[int, ...]) -> list[int]:
        return [value if self.is_least[name] else -value for name, value in zip(names, values)]

    def _told(self, nodes: list[Node], number: dict[int, int],
              best: list[dict[str, Any]]) -> list[tuple[tuple[int, ...], list[Argument]]] | None:
        """What is known of all nodes, by the rule that each one has under the one above it."""
        rules: list[Any] = [self.axiom] + [None] * (len(nodes) - 1)
        told: list[tuple[tuple[int, ...], list[Argument]]] = []
        for at, node in enumerate(nodes):
            found = best[at].get(rules[at])
            if found is None:
                return None
            told.append(found)
            for part, argument in zip(node.parts, found[1]):
                if isinstance(part, Node):
                    rules[number[id(part)]] = argument.rule
        return told


def _line(text: str) -> str:
    """A line of a job, which may hold no line's end."""
    if "\n" in text or text.endswith("\r"):
        raise ValueError(f"a line of a job cannot hold a line's end: {text!r}")
    return text


def _is_nested(alternative: str) -> bool:
    """Whether an alternative has another one as an argument."""
    return sum(mark == "(" for _, _, mark in _TOKEN.findall(alternative)) > 1


def write_job(*, signs: Mapping[str, Sequence[str]], algebras: Mapping[str, tuple[str, Mapping[str, str]]],
              rules: Mapping[str, Sequence[str]], words: Iterable[str] = (),
              classes: Mapping[str, Mapping[str, int]] | None = None, grammar: str | None = None,
              version: int | None = None) -> str:
    """The text of a job. `signs`: of each its kinds, 'token' or 'score'. `algebras`: of each 'min' or 'max', and of
    each sign with its variables, as 'put(x, y)', its term. `rules`: of each its alternatives; the first is that of the
    whole word, unless `grammar` names another. `classes`: of each the weight of each letter, or of several letters at
    once. `version` is the format, 1, 2 or 3; where it is not given the first one that has such terms and
    alternatives."""
    if version is None:
        terms = [term for _, lets in algebras.values() for term in lets.values()]
        alternatives = [alternative for its in rules.values() for alternative in its]
        version = 1 if all(map(_SUM.fullmatch, terms)) and not any(map(_SIZE.search, alternatives)) else 2
        version = 3 if any(map(_is_nested, alternatives)) else version
    lines = [f"adp {version}"]
    for name, weights in (classes or {}).items():
        lines.append(f"class {name} = " + " ".join(f"{quoted(it)} {weight}" for it, weight in weights.items()))
    lines += [f"sign {name}({', '.join(kinds)})" for name, kinds in signs.items()]
    for name, (goal, terms) in algebras.items():
        lines += [f"algebra {name} {goal}", *(f"let {sign} = {term}" for sign, term in terms.items())]
    lines += [f"rule {name} = {' | '.join(alternatives)}" for name, alternatives in rules.items()]
    lines += [f"grammar {grammar or next(iter(rules))}", "words", *_listed(words)]
    return "\n".join(_line(line) for line in lines) + "\n"


def _listed(words: Iterable[str]) -> Iterator[str]:
    """Words, each of which is looked at."""
    if isinstance(words, (str, bytes)):
        raise TypeError("words are a list of texts, and no text")
    for number, word in enumerate(words, 1):
        if not isinstance(word, str):
            raise TypeError(f"words are texts, and number {number} is of type {type(word).__name__}")
        yield _line(word)


def _header_end(text: str) -> int:
    """Where the words of a job begin: behind the line `words`, or at its end."""
    found = _WORDS_LINE.search(text, text.find("\n") + 1)
    return len(text) if found is None else min(found.end() + 1, len(text))


def _header_lines(text: str) -> int:
    """How many lines stand before the words of a job."""
    return text.count("\n", 0, _header_end(text))


def _header(text: str) -> str:
    """A job without its words, up to the line `words`."""
    front = text[: _header_end(text)]
    front = front if not front or front.endswith("\n") else front + "\n"
    return front if _WORDS_LINE.search(front, front.find("\n") + 1) else front + "words\n"


def _with_words(text: str, words: Iterable[str]) -> str:
    """A job with further words behind its own."""
    own = text[_header_end(text) :]
    return _header(text) + own + "\n" * (own != "" and own[-1] != "\n") + "".join(f"{it}\n" for it in _listed(words))


def _words_of(text: str) -> list[str]:
    """The words that stand behind the header of a job."""
    lines = text[_header_end(text) :].split("\n")
    return [line.removesuffix("\r") for line in lines[: len(lines) - (lines[-1:] == [""])]]


def _count_words(text: str) -> int:
    """How many they are."""
    return len(_words_of(text))


def _launchers() -> list[str]:
    """Where the command `adp` may stand: within the package, above this file, and on the PATH."""
    here = os.path.dirname(os.path.realpath(__file__))
    known = [os.path.join(here, "lib", "adp"), os.path.join(os.path.dirname(here), "adp"), shutil.which("adp") or ""]
    return [path for path in known if os.path.isfile(path) and os.access(path, os.X_OK)]


def find_program() -> str:
    """The command `adp`: the one that ADP names, the one with this file or above it, or the one on the PATH."""
    return os.environ.get("ADP") or [*_launchers(), "adp"][0]


def called() -> str:
    """The name by which this tool is called: one that is installed has another than in the checkout."""
    name = os.path.basename(sys.argv[0])
    return name if name.startswith("adp-") else f"tools/{name}"


def as_called(text: str) -> str:
    """A text that names the commands of the checkout as they are called here."""
    if called().startswith("tools/"):
        return text
    return re.sub(r"\btools/([a-z-]+)\b(?!\.[a-z])", r"adp-\1", text).replace("./adp ", "adp ")


def started_by(command: str) -> str:
    """What is started for a command: the program itself, where the command is a launcher that is installed with it; in
    a checkout the launcher, which looks whether the program is that of the sources."""
    top = os.path.dirname(os.path.realpath(shutil.which(command) or command))
    program = os.path.join(top, "prebuilt", "adp")
    is_alone = os.access(program, os.X_OK) and not os.path.isdir(os.path.join(top, "crates"))
    return program if is_alone and (sys.platform, platform.machine()) == ("linux", "x86_64") else command


def run_environment() -> dict[str, str] | None:
    """The environment of a run, or none where it is that of this process, since GLIBC_TUNABLES is set already: the C
    library keeps what is freed, since the next group of words takes as much again, and asks for large pages, in which
    large tables are faster, where the system gives them to those who ask."""
    if "GLIBC_TUNABLES" in os.environ:
        return None
    settings = ["glibc.malloc.trim_threshold=1073741824", "glibc.malloc.mmap_threshold=33554432"]
    try:
        with open("/sys/kernel/mm/transparent_hugepage/enabled", encoding="ascii") as setting:
            if "[madvise]" in setting.read():
                settings.append("glibc.malloc.hugetlb=1")
    except OSError:
        pass
    return {**os.environ, "GLIBC_TUNABLES": ":".join(settings)}


def solve(job: str | None = None, *, words: Iterable[str] | None = None, mode: str | None = None,
          algebra: str | None = None, then: str | None = None, best: int | None = None, workers: int | None = None,
          seed: int | None = None, schedule: str | None = None, only: Iterable[str] | None = None,
          program: str | None = None, timeout: float | None = None, **parts: Any) -> list[Report]:
    """The reports of a job, which is a text, or is made of its parts (see `write_job`); `words` are asked behind those
    of a text, `only` in their place. A fault is raised, and after `timeout` seconds a `TimeoutError`. The mode is one
    that reads a job and writes reports: 'serial', the quickest one, 'best' with its workers, 'wins', 'replay' with a
    schedule, 'lex' with `then`, the algebra that decides among equals, or 'kbest' with `best`, how many trees each
    report lists. Where none is named it is the one that the options are of, and else 'serial'."""
    if job is not None and parts:
        raise TypeError(f"a job is a text, or is given by its parts: beside a text {', '.join(parts)} can't stand")
    if job is None and not parts:
        raise TypeError("a job is a text, or is given by its parts")
    if words is not None and only is not None:
        raise TypeError("words stand behind those of the job, or are the only ones, and not both")
    if job is None:
        text = write_job(**parts, words=() if words is None and only is None else words or only or ())
    elif not isinstance(job, str):
        raise TypeError(f"a job is a text, and this is of type {type(job).__name__}")
    elif only is not None:
        text = _with_words(_header(job), only)
    else:
        text = job if words is None else _with_words(job, words)
    options = {"algebra": algebra, "then": then, "best": best, "workers": workers, "seed": seed, "schedule": schedule}
    mode = mode or _mode_of(options)
    _check(mode, options)
    reports = list(read_reports(_written(program, mode, options, text, timeout)))
    if [report.word for report in reports] != list(range(1, _count_words(text) + 1)):
        raise Malformed(f"{_count_words(text)} words were given, and {len(reports)} reports came")
    return reports


def _mode_of(options: Mapping[str, Any]) -> str:
    """The mode that has these options."""
    by_option = {option: mode for mode, option in _NEEDED.items()} | {"workers": "best"}
    return next((mode for option, mode in by_option.items() if options[option] is not None), "serial")


def _check(mode: str, options: Mapping[str, Any]) -> None:
    """Refuses a mode and options that are none."""
    if mode not in _MODES:
        raise ValueError(f"there is no mode {mode!r} of reports: there are {', '.join(_MODES)}")
    for name, value in options.items():
        if value is None:
            if name == _NEEDED.get(mode):
                raise ValueError(f"the mode {mode} needs {name}")
        elif name not in _MODES[mode].split():
            raise ValueError(f"{name} is not of the mode {mode}, whose options are {_MODES[mode].replace(' ', ', ')}")
        else:
            _check_value(name, value)


def _check_value(name: str, value: Any) -> None:
    wanted = int if name in _RANGES else str
    if not isinstance(value, wanted) or isinstance(value, bool):
        raise TypeError(f"{name} is of type {wanted.__name__}, and this is of type {type(value).__name__}")
    least, most = _RANGES.get(name, (0, 0))
    if isinstance(value, int) and not least <= value <= most:
        raise ValueError(f"{name} lies between {least} and {most}, and is not {value}")


def solve_many(job: str, words: Iterable[str], *, processes: int = 1, run_words: int = 8192,
               **options: Any) -> Iterator[Report]:
    """The reports of any number of words, without those of the job, one after the other, with the numbers that the
    words have in the whole. They are asked in runs of at most so many words, of which so many are made side by side;
    the options are those of `solve`. Words may come from anywhere, and are taken as they are needed. The fault of a run
    is raised where its reports would come, and tells the `word` in the whole; so is a `TimeoutError` of a run."""
    if processes < 1 or run_words < 1:
        raise ValueError("there is one process at least, and one word in a run")
    runs = _runs(_listed(words), min(run_words, _MOST_WORDS), _MOST_BYTES - len(_bytes_of(_header(job))))
    with ThreadPoolExecutor(processes) as side_by_side:
        window: deque[Future[list[Report]]] = deque()
        try:
            for before, run in runs:
                window.append(side_by_side.submit(_reports_of, job, before, run, options))
                if len(window) > processes:
                    yield from window.popleft().result()
            while window:
                yield from window.popleft().result()
        finally:
            for future in window:
                future.cancel()


def _runs(words: Iterable[str], most_words: int, most_bytes: int) -> Iterator[tuple[int, list[str]]]:
    """Words in runs that keep these bounds, each with the number of words before. (A word that is too long for any run
    has one of its own.)"""
    run: list[str] = []
    count = size = 0
    for word in words:
        length = len(word.encode("utf-8", "surrogateescape")) + 1
        if run and (len(run) == most_words or size + length > most_bytes):
            yield count, run
            count, run, size = count + len(run), [], 0
        run.append(word)
        size += length
    if run:
        yield count, run


def _reports_of(job: str, before: int, words: list[str], options: Mapping[str, Any]) -> list[Report]:
    """The reports of a run with so many words before it."""
    try:
        reports = solve(job, only=words, **options)
    except Fault as fault:
        raise Fault(fault.line, fault.status, fault._run, before) from None
    for report in reports:
        report.word += before
    return reports


def solve_big(size: int, *, seed: int | None = None, workers: int | None = None, program: str | None = None,
              timeout: float | None = None) -> tuple[int, int]:
    """The best score and the number of cells of a word of this size that is made from a seed. A fault is raised."""
    options = {"size": size, "seed": seed, "workers": workers}
    for name, value in options.items():
        if value is not None:
            _check_value(name, value)
    lines = _written(program, "big", options, "", timeout).splitlines()
    told = dict(line.split(" ", 1) for line in lines if " " in line)
    if list(told) != ["size", "score", "cells"]:
        raise Malformed(f"no report of a word that is made: {lines!r}")
    return int(told["score"]), int(told["cells"])


def _bytes_of(text: str) -> bytes:
    return text.encode("utf-8", "surrogateescape")


def _written(program: str | None, mode: str, options: Mapping[str, Any], text: str, timeout: float | None) -> str:
    command, words = program or find_program(), [mode]
    for name, value in options.items():
        words += [] if value is None else ["--" + name, str(value)]
    with subprocess.Popen([started_by(command), *words], stdin=subprocess.PIPE, stdout=subprocess.PIPE, stderr=subprocess.PIPE,
                          env=run_environment()) as process:
        try:
            written, told = process.communicate(_bytes_of(text), timeout)
        except BaseException as error:
            _end(process)
            if isinstance(error, subprocess.TimeoutExpired):
                raise TimeoutError(f"no reports within {timeout} seconds") from None
            raise
    if process.returncode != 0:
        lines = told.decode(errors="replace").strip().splitlines()
        line = next((line for line in lines if line.startswith("fault ")), lines[-1] if lines else "")
        raise Fault(line, process.returncode, ([command, *words], text))
    return written.decode()


def _end(process: subprocess.Popen[bytes]) -> None:
    """Ends a run; a launcher ends its program too, where it is asked to end."""
    process.terminate()
    try:
        process.wait(2)
    except subprocess.TimeoutExpired:
        process.kill()


def main() -> int:
    """Runs the command `adp` in the place of this process."""
    command = shutil.which(find_program())
    if command is None or os.path.realpath(command) == os.path.realpath(sys.argv[0]):
        print("adp: there is no program here: tools/install puts one on the PATH", file=sys.stderr)
        return 1
    os.execv(command, [command, *sys.argv[1:]])


if __name__ == "__main__":
    sys.exit(main())
