#!/usr/bin/env python3
"""Looks for queries that take a program far longer than another one.

    python3 bench/random_queries.py FOLDER --program PROGRAM --other PROGRAM [--count 2000] [--seed 1]
    python3 bench/random_queries.py FOLDER --list [--count 2000] [--seed 1]

It draws random queries from all forms of the language, each form of a rule of the grammar as often as the others,
over the concepts, attribute types, values, numbers and reference sets of a release. The same release and seed give
the same queries. `--list` prints them, in the form that classes.py reads.

Both programs take `query FOLDER`. Each query is asked of both in turn; the least of five times counts, from the
write of its line to the last byte of its answer. A query that takes longer than `--seconds` in either is left out,
and told. The script prints the ratios of those that take at least 0.2 ms in either program, the geometric mean over
all, and the worst. Its status is 1 if two answers differ."""
from __future__ import annotations

import argparse
import math
import os
import pathlib
import random
import select
import shlex
import subprocess
import sys
import time
from typing import Callable, Dict, List, NamedTuple, Optional

from selective import IS_A, relationships

DEPTH = 3
LEAST_SECONDS = 0.0002
OPERATORS = ["", "<", "<<", "<!", "<<!", ">", ">>", ">!", ">>!", "!!>", "!!<"]
COUNTS = ["", "[0..0]", "[0..1]", "[0..2]", "[0..*]", "[1..1]", "[1..*]", "[2..*]", "[3..*]"]


class Words:
    """What a release has to be asked for: identifiers by what they are, and numbers."""

    def __init__(self, folder: pathlib.Path) -> None:
        rows = list(relationships(folder))
        attributes = [row for row in rows if row[2] != IS_A]
        parents = {source: destination for source, destination, kind in rows if kind == IS_A}
        self.concepts = sorted(parents)
        self.inner = sorted(set(parents.values()))
        self.high = sorted({above(parents, concept) for concept in self.concepts[::97]})
        self.types = sorted({kind for _, _, kind in attributes})
        self.values = sorted({destination for _, destination, _ in attributes})
        self.sources = sorted({source for source, _, _ in attributes})
        self.reference_sets = sorted(column(folder, "*der2_Refset_Simple*Snapshot*.txt", 4))
        self.numbers = sorted(column(folder, "*sct2_RelationshipConcreteValues_*Snapshot*.txt", 5)) or ["#1"]


def above(parents: Dict[str, str], concept: str) -> str:
    """Returns the concept two steps below the root on one way up from a concept."""
    way = [concept]
    while way[-1] in parents:
        way.append(parents[way[-1]])
    return way[max(0, len(way) - 3)]


def column(folder: pathlib.Path, pattern: str, place: int) -> set[str]:
    """Returns what stands in a column of the rows in force of files."""
    found = set()
    for path in folder.rglob(pattern):
        with open(path, encoding="utf-8") as lines:
            next(lines)
            rows = (line.rstrip("\r\n").split("\t") for line in lines)
            found.update(row[place] for row in rows if row[2] == "1")
    return found


class Grammar:
    """Draws a text of each rule. `depth` is how many brackets may still be opened."""

    def __init__(self, words: Words, dice: random.Random) -> None:
        self.words, self.dice = words, dice

    def constraint(self, depth: int) -> str:
        return self.one_of(
            lambda: self.sub(depth),
            lambda: f"{self.sub(depth)}:{self.refinement(depth)}",
            lambda: self.joined(" AND ", lambda: self.sub(depth)),
            lambda: self.joined(" OR ", lambda: self.sub(depth)),
            lambda: f"{self.sub(depth)} MINUS {self.sub(depth)}",
            lambda: ".".join([self.sub(depth), *(self.type(depth) for _ in range(self.dice.randint(1, 2)))]),
        )

    def sub(self, depth: int) -> str:
        focus = self.one_of(lambda: self.concept(), lambda: "*", lambda: self.brackets(self.constraint, depth))
        member = self.one_of(lambda: "", lambda: "", lambda: "^")
        if member:
            focus = self.one_of(
                lambda: self.dice.choice(self.words.reference_sets or self.words.concepts), lambda: "*"
            )
        return self.dice.choice(OPERATORS) + member + focus

    def concept(self) -> str:
        kinds = [
            self.words.concepts,
            self.words.inner,
            self.words.high,
            self.words.sources,
            self.words.values,
            self.words.types,
        ]
        return self.dice.choice(self.dice.choice(kinds))

    def type(self, depth: int) -> str:
        return self.one_of(
            lambda: self.dice.choice(self.words.types),
            lambda: "*",
            lambda: "<<" + self.dice.choice(self.words.types),
            lambda: self.brackets(self.constraint, depth - 1),
        )

    def refinement(self, depth: int) -> str:
        item = lambda: self.item(depth)
        return self.one_of(item, lambda: self.joined(",", item), lambda: self.joined(" OR ", item))

    def item(self, depth: int) -> str:
        return self.one_of(
            lambda: self.count() + self.pair(depth),
            lambda: f"{self.count()}R {self.pair(depth)}",
            lambda: f"{self.count()}{{{self.attributes(depth)}}}",
            lambda: self.brackets(self.refinement, depth),
        )

    def attributes(self, depth: int) -> str:
        part = lambda: self.one_of(
            lambda: self.count() + self.pair(depth), lambda: self.brackets(self.attributes, depth)
        )
        return self.one_of(part, lambda: self.joined(",", part), lambda: self.joined(" OR ", part))

    def pair(self, depth: int) -> str:
        number = lambda: self.dice.choice(["=", "!=", "<", "<=", ">", ">="]) + self.dice.choice(self.words.numbers)
        value = lambda: self.dice.choice(["=", "!="]) + self.one_of(
            lambda: self.dice.choice(["", "<<"]) + self.dice.choice(self.words.values), lambda: self.sub(depth - 1)
        )
        return self.type(depth) + self.one_of(value, value, number)

    def count(self) -> str:
        return self.dice.choice(COUNTS)

    def brackets(self, inner: Callable[[int], str], depth: int) -> str:
        return (
            f"({inner(depth - 1)})"
            if depth > 0
            else f"({self.concept()})"
            if inner == self.constraint
            else self.pair(0)
        )

    def joined(self, word: str, part: Callable[[], str]) -> str:
        return word.join(part() for _ in range(self.dice.randint(2, 3)))

    def one_of(self, *forms: Callable[[], str]) -> str:
        return self.dice.choice(forms)()


class Late(Exception):
    """The answer was not whole in time."""


class Program:
    """A program that has loaded a release and answers queries through pipes."""

    def __init__(self, command: str, folder: pathlib.Path, seconds: float) -> None:
        self.words, self.seconds = [*shlex.split(command), "query", str(folder)], seconds
        self.start()

    def start(self) -> None:
        self.process = subprocess.Popen(self.words, stdin=subprocess.PIPE, stdout=subprocess.PIPE, bufsize=0)
        self.answer("138875005", 600)

    def answer(self, query: str, seconds: Optional[float] = None) -> bytes:
        """Returns the answer to a query; ends the process if it takes too long, and starts another."""
        assert self.process.stdin is not None and self.process.stdout is not None
        end = time.monotonic() + (seconds or self.seconds)
        os.write(self.process.stdin.fileno(), f"{query}\n".encode())
        pieces: List[bytes] = []
        left: Optional[int] = None
        while left is None or left > 0:
            if not select.select([self.process.stdout], [], [], max(0.0, end - time.monotonic()))[0]:
                self.process.kill()
                self.process.wait()
                self.start()
                raise Late
            piece = os.read(self.process.stdout.fileno(), 1 << 16)
            if not piece:
                sys.exit(f"the program ended at {query}")
            pieces.append(piece)
            if left is not None:
                left -= piece.count(b"\n")
            elif b"\n" in piece:
                start = b"".join(pieces)
                words = start.split(b"\n", 1)[0].split()
                left = 1 + (int(words[1]) if words[0] == b"OK" else 0) - start.count(b"\n")
        return b"".join(pieces)


class Asked(NamedTuple):
    """A query, the seconds that it takes in both programs, and whether the answers are the same."""

    query: str
    own: float
    other: float
    same: bool

    @property
    def ratio(self) -> float:
        return self.own / self.other


def asked(query: str, own: Program, other: Program, rounds: int = 5) -> Asked:
    times: Dict[str, List[float]] = {"own": [], "other": []}
    answers = []
    for _ in range(rounds):
        for name, program in (("own", own), ("other", other)):
            start = time.perf_counter()
            answers.append(program.answer(query))
            times[name].append(time.perf_counter() - start)
        # a slow query is asked less often
        if sum(map(sum, times.values())) > 2:
            break
    # two programs may refuse a text for different causes
    told = {b"ERR" if it.startswith(b"ERR") else it for it in answers}
    return Asked(query, min(times["own"]), min(times["other"]), len(told) == 1)


def report(found: List[Asked], late: List[str]) -> None:
    long = sorted((it for it in found if max(it.own, it.other) >= LEAST_SECONDS), key=lambda it: it.ratio)
    mean = math.exp(sum(math.log(it.ratio) for it in found) / len(found))
    print(
        f"{len(found)} queries, geometric mean {mean:.2f}; {len(long)} of at least {1000 * LEAST_SECONDS} ms in either"
    )
    for share in (50, 90, 95, 99, 100):
        if long:
            print(f"  {share} of 100 within {long[max(0, math.ceil(share * len(long) / 100) - 1)].ratio:.2f}")
    for it in reversed(long[-20:]):
        print(f"{it.ratio:8.2f} {1000 * it.own:10.3f} ms {1000 * it.other:10.3f} ms  {it.query}")
    for query in late:
        print(f"too slow in one of them: {query}")
    for it in found:
        if not it.same:
            print(f"answers differ: {it.query}")


def main() -> None:
    words = argparse.ArgumentParser(description=__doc__, formatter_class=argparse.RawDescriptionHelpFormatter)
    words.add_argument("folder", type=pathlib.Path)
    words.add_argument("--program", default=str(pathlib.Path(__file__).resolve().parent.parent / "hosecrag"))
    words.add_argument("--other")
    words.add_argument("--list", action="store_true")
    words.add_argument("--count", type=int, default=2000)
    words.add_argument("--seed", type=int, default=1)
    words.add_argument("--seconds", type=float, default=10)
    options = words.parse_args()
    grammar = Grammar(Words(options.folder), random.Random(options.seed))
    queries = [grammar.constraint(DEPTH) for _ in range(options.count)]
    if options.list or not options.other:
        for query in queries:
            print(f"random\t{query}")
        return
    own = Program(options.program, options.folder, options.seconds)
    other = Program(options.other, options.folder, options.seconds)
    found, late = [], []
    for query in queries:
        try:
            found.append(asked(query, own, other))
        except Late:
            late.append(query)
    report(found, late)
    sys.exit(1 if any(not it.same for it in found) else 0)


if __name__ == "__main__":
    main()
