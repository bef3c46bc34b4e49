#!/usr/bin/env python3
"""Makes a synthetic extension of a release: new concepts in a namespace of their own, each below concepts of the
edition, with descriptions and relationships; and later rows of some of the edition's relationships and descriptions, as
an extension has them that changes what it stands on. The same words always make the same extension."""
import argparse
import pathlib
import random

from make_release import CASE, DEFINED, FULL_NAME, INFERRED, IS_A, SOME, SYNONYM, identifier

MODULE = identifier("11000001", "00")
NAMESPACE = "1000001"
TIME = "20250901"


def only(folder, pattern):
    return next(iter(sorted(folder.rglob(pattern))))


def rows_of(path):
    with open(path, newline="") as file:
        header = next(file)
        return header, (line.rstrip("\r\n").split("\t") for line in file.readlines())


def write(path, header, rows):
    with open(path, "w", newline="") as file:
        file.write(header)
        file.writelines("\t".join(row) + "\r\n" for row in rows)


def extended(item, partition):
    """The identifier of an item of the extension's namespace."""
    return identifier(f"{item}{NAMESPACE}", partition)


def changed(rows, every):
    """Later rows, in the extension's module, of one of so many rows."""
    for place, row in enumerate(rows):
        if place % every == 0:
            yield [row[0], TIME, row[2], MODULE, *row[4:]]


def main():
    words = argparse.ArgumentParser(description=__doc__)
    words.add_argument("edition", type=pathlib.Path)
    words.add_argument("folder", type=pathlib.Path)
    words.add_argument("--concepts", type=int, default=30_000)
    words.add_argument("--every", type=int, default=50, help="one of so many rows of the edition has a later row")
    words.add_argument("--seed", type=int, default=1)
    asked = words.parse_args()
    source = random.Random(asked.seed)
    asked.folder.mkdir(parents=True, exist_ok=True)
    header, rows = rows_of(only(asked.edition, "sct2_Concept_*.txt"))
    active = [row[0] for row in rows if row[2] == "1"]
    concepts = [extended(number, "10") for number in range(1, asked.concepts + 1)]
    write(asked.folder / "sct2_Concept_Snapshot_XX1000001_20250901.txt", header, ([concept, TIME, "1", MODULE, DEFINED] for concept in concepts))
    header, rows = rows_of(only(asked.edition, "sct2_Description_*.txt"))
    made = ([extended(3 * number + place, "11"), TIME, "1", MODULE, concept, "en", kind, f"Concept number {number} of an extension (finding)", CASE]
            for number, concept in enumerate(concepts, 1) for place, kind in enumerate((FULL_NAME, SYNONYM, SYNONYM)))
    write(asked.folder / "sct2_Description_Snapshot-en_XX1000001_20250901.txt", header, [*changed(rows, asked.every), *made])
    header, rows = rows_of(only(asked.edition, "sct2_Relationship_*.txt"))
    made = ([extended(6 * number + place, "12"), TIME, "1", MODULE, concept, source.choice(active), "0", IS_A, INFERRED, SOME]
            for number, concept in enumerate(concepts, 1) for place in range(source.choice((1, 2, 2, 3))))
    write(asked.folder / "sct2_Relationship_Snapshot_XX1000001_20250901.txt", header, [*changed(rows, asked.every), *made])


if __name__ == "__main__":
    main()
