#!/usr/bin/env python3
"""Writes random queries of a narrow focus for a release, in the form that classes.py reads: a class, a tab and a query to a line.

    python3 bench/selective.py FOLDER --count 400 > selective.txt
    python3 bench/classes.py FOLDER --queries selective.txt --other "PROGRAM"

The classes: a refinement of one concept, or of the descendants of one that has few (`one` and `narrow`); one concept AND a constraint
(`and`); braces with a narrow and a wide part (`braces`); attributes read backwards and dotted ones of one concept (`back`, `dotted`).
Identifiers are those of rows in force of the release's Relationship files, so every attribute and value is in use. The same seed gives
the same queries."""
import argparse
import collections
import pathlib
import random

IS_A = "116680003"
INFERRED = "900000000000011006"


def relationships(folder):
    """The source, the destination and the type of each row in force."""
    for path in sorted(folder.rglob("*sct2_Relationship_*Snapshot*.txt")):
        with open(path, encoding="utf-8") as lines:
            next(lines)
            for line in lines:
                fields = line.rstrip("\r\n").split("\t")
                if fields[2] == "1" and fields[8] == INFERRED:
                    yield fields[4], fields[5], fields[7]


class Release:
    """What queries are made of: attribute rows, parents and children."""

    def __init__(self, folder):
        self.attributes, self.parents, self.children = [], {}, collections.defaultdict(list)
        for source, destination, kind in relationships(folder):
            if kind == IS_A:
                self.parents.setdefault(source, destination)
                self.children[destination].append(source)
            else:
                self.attributes.append((source, destination, kind))

    def above(self, concept, steps):
        """A concept so many steps above, or the last before the root."""
        for _ in range(steps):
            if self.parents.get(self.parents.get(concept)) is None:
                break
            concept = self.parents[concept]
        return concept

    def is_narrow(self, concept):
        """Whether a concept has a few children and these have few."""
        children = self.children[concept]
        return 1 <= len(children) <= 40 and sum(len(self.children[child]) for child in children) <= 200


def pair(release, dice, wide):
    """An attribute with a value: of a narrow one the very value, of a wide one any or what is far above it."""
    _, value, kind = dice.choice(release.attributes)
    if not wide:
        return f"{kind}={dice.choice(['', '<<'])}{value}"
    return f"{kind}={dice.choice(['*', '<<' + release.above(value, dice.randint(2, 6))])}"


def own_pair(release, dice, source_row):
    """A pair that the source of a row has, or a wider one."""
    _, value, kind = source_row
    return f"{kind}={dice.choice([value, '<<' + release.above(value, dice.randint(0, 4)), '*'])}"


def refinement(release, dice, row):
    parts = [own_pair(release, dice, row), pair(release, dice, dice.random() < 0.7)]
    dice.shuffle(parts)
    form = dice.randrange(4)
    if form == 0:
        return parts[0]
    if form == 1:
        return ",".join(parts)
    if form == 2:
        return "{" + ",".join(parts) + "}"
    return "{" + parts[0] + "},{" + parts[1] + "}"


def narrow_focus(release, dice, row):
    concept = row[0]
    for _ in range(4):
        if release.is_narrow(concept):
            return f"<<{concept}"
        concept = release.above(concept, 1)
    return f"<<{row[0]}"


def query(release, dice):
    """A class and a query."""
    row = dice.choice(release.attributes)
    wide = "<<" + release.above(row[0], dice.randint(2, 6))
    kind = dice.choice(["one", "narrow", "and", "braces", "back", "dotted"])
    if kind == "one":
        return kind, f"{row[0]}:{refinement(release, dice, row)}"
    if kind == "narrow":
        return kind, f"{narrow_focus(release, dice, row)}:{refinement(release, dice, row)}"
    if kind == "and":
        return kind, f"{row[0]} AND {dice.choice(['', '!!<', '!!>', '<<', '>'])}({wide}:{refinement(release, dice, row)})"
    if kind == "braces":
        return kind, f"{wide}:{{{pair(release, dice, False)},{pair(release, dice, True)}}}"
    if kind == "back":
        return kind, f"{row[1]}:R {row[2]}={dice.choice(['*', wide])}"
    return kind, f"{row[0]}.{row[2]}"


def main():
    words = argparse.ArgumentParser(description=__doc__, formatter_class=argparse.RawDescriptionHelpFormatter)
    words.add_argument("folder", type=pathlib.Path)
    words.add_argument("--count", type=int, default=400)
    words.add_argument("--seed", type=int, default=1)
    asked = words.parse_args()
    release, dice = Release(asked.folder), random.Random(asked.seed)
    for kind, line in sorted({query(release, dice) for _ in range(asked.count)}):
        print(f"{kind}\t{line}")


if __name__ == "__main__":
    main()
