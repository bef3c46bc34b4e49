#!/usr/bin/env python3
"""Makes a synthetic RF2 Snapshot release: FOLDER, and a scale of which 1.0 is about an International Edition
(520,000 concept rows, 1.6 million descriptions, 3.3 million relationships, 20,000 concrete values, 400,000 members of
reference sets). The same scale and seed always make the same release. Names, identifiers and the hierarchy are made up."""
import argparse
import pathlib
import random
import uuid

PRODUCT = ["0123456789", "1234067895", "2340178956", "3401289567", "4012395678",
           "5987604321", "6598710432", "7659821043", "8765932104", "9876543210"]
PERMUTATION = ["0123456789", "1576283094", "5803796142", "8916043527",
               "9453126870", "4286573901", "2793806415", "7046913258"]
TIMES = [[[int(PRODUCT[c][int(PERMUTATION[place][digit])]) for digit in range(10)] for c in range(10)]
         for place in range(8)]
INVERSE = [0, 4, 3, 2, 1, 5, 6, 7, 8, 9]

MODULE = "900000000000207008"
DEFINED = "900000000000074008"
IS_A = "116680003"
INFERRED = "900000000000011006"
STATED = "900000000000010007"
SOME = "900000000000451002"
FULL_NAME = "900000000000003001"
SYNONYM = "900000000000013009"
CASE = "900000000000448009"
ROOT = "138875005"


def identifier(item, partition):
    """The identifier of an item number in a partition, with its check digit (RF2, SCTID check digit)."""
    text = f"{item}{partition}"
    check = 0
    for place, digit in enumerate(reversed(text), 1):
        check = TIMES[place % 8][check][ord(digit) - 48]
    return f"{text}{INVERSE[check]}"


def concepts_of(count, source):
    """The root and other concepts: the identifier of each and whether it is active."""
    others = ((identifier(100000 + 7 * number, "00"), int(source.random() < 0.71)) for number in range(1, count))
    return [(ROOT, 1), *others]


def parents_of(number, source):
    """Numbers of parents, all lesser, so that there is no cycle; about 1.7 of them."""
    least = number // 6
    return {source.randint(least, min(number - 1, least + 40)) for _ in range(source.choice((1, 1, 2, 2, 3)))}


def write_concepts(path, concepts):
    with open(path, "w", newline="") as file:
        file.write("id\teffectiveTime\tactive\tmoduleId\tdefinitionStatusId\r\n")
        for concept, active in concepts:
            file.write(f"{concept}\t20240101\t{active}\t{MODULE}\t{DEFINED}\r\n")


def write_descriptions(path, concepts):
    with open(path, "w", newline="") as file:
        file.write("id\teffectiveTime\tactive\tmoduleId\tconceptId\tlanguageCode\ttypeId\tterm\tcaseSignificanceId\r\n")
        item = 100000
        for number, (concept, _) in enumerate(concepts):
            for kind, words in ((FULL_NAME, "Concept number {} of a made-up release (finding)"), (SYNONYM, "Concept number {}"), (SYNONYM, "Number {} of a made-up release")):
                item += 3
                term = words.format(number)
                file.write(f"{identifier(item, '01')}\t20240101\t1\t{MODULE}\t{concept}\ten\t{kind}\t{term}\t{CASE}\r\n")


def write_relationships(path, concepts, rows, source):
    active = [number for number, (_, is_active) in enumerate(concepts) if is_active]
    with open(path, "w", newline="") as file:
        file.write("id\teffectiveTime\tactive\tmoduleId\tsourceId\tdestinationId\trelationshipGroup\ttypeId\tcharacteristicTypeId\tmodifierId\r\n")
        item = 100000

        def write(active_row, child, parent, group, kind, view):
            nonlocal item
            item += 3
            file.write(f"{identifier(item, '02')}\t20240101\t{active_row}\t{MODULE}\t{concepts[child][0]}\t{concepts[parent][0]}\t{group}\t{kind}\t{view}\t{SOME}\r\n")

        for place in range(1, len(active)):
            for parent in parents_of(place, source):
                write(1, active[place], active[parent], 0, IS_A, INFERRED)
        while (item - 100000) // 3 < rows:
            child, parent = source.choice(active), source.choice(active)
            write(source.randint(0, 1), child, parent, source.randint(0, 3), concepts[1 + source.randrange(50)][0], source.choice((INFERRED, STATED)))


def write_concrete_values(path, concepts, rows, source):
    with open(path, "w", newline="") as file:
        file.write("id\teffectiveTime\tactive\tmoduleId\tsourceId\tvalue\trelationshipGroup\ttypeId\tcharacteristicTypeId\tmodifierId\r\n")
        for row in range(rows):
            concept, kind = source.choice(concepts)[0], concepts[1 + source.randrange(50)][0]
            value = f"#{source.randint(0, 999)}" + source.choice(("", f".{source.randint(0, 99):02}"))
            file.write(f"{identifier(50_000_000 + 3 * row, '02')}\t20240101\t1\t{MODULE}\t{concept}\t{value}\t{source.randint(0, 3)}\t{kind}\t{INFERRED}\t{SOME}\r\n")


def write_members(path, concepts, rows, source):
    with open(path, "w", newline="") as file:
        file.write("id\teffectiveTime\tactive\tmoduleId\trefsetId\treferencedComponentId\r\n")
        for _ in range(rows):
            member = uuid.UUID(int=source.getrandbits(128), version=4)
            file.write(f"{member}\t20240101\t{source.randint(0, 1)}\t{MODULE}\t{concepts[1 + source.randrange(50)][0]}\t{source.choice(concepts)[0]}\r\n")


def shuffle(path, source):
    """Puts the rows behind the header in no order."""
    header, *rows = path.read_bytes().splitlines(keepends=True)
    source.shuffle(rows)
    path.write_bytes(header + b"".join(rows))


def main():
    words = argparse.ArgumentParser(description=__doc__)
    words.add_argument("folder", type=pathlib.Path)
    words.add_argument("--scale", type=float, default=1.0)
    words.add_argument("--seed", type=int, default=1)
    words.add_argument("--shuffled", action="store_true", help="the rows of each file in no order")
    asked = words.parse_args()
    source = random.Random(asked.seed)
    asked.folder.mkdir(parents=True, exist_ok=True)
    concepts = concepts_of(max(100, int(520_000 * asked.scale)), source)
    write_concepts(asked.folder / "sct2_Concept_Snapshot_INT_20240101.txt", concepts)
    write_descriptions(asked.folder / "sct2_Description_Snapshot-en_INT_20240101.txt", concepts)
    write_relationships(asked.folder / "sct2_Relationship_Snapshot_INT_20240101.txt", concepts, int(3_300_000 * asked.scale), source)
    write_concrete_values(asked.folder / "sct2_RelationshipConcreteValues_Snapshot_INT_20240101.txt", concepts, int(20_000 * asked.scale), source)
    write_members(asked.folder / "der2_Refset_SimpleSnapshot_INT_20240101.txt", concepts, int(400_000 * asked.scale), source)
    if asked.shuffled:
        for path in sorted(asked.folder.glob("*.txt")):
            shuffle(path, source)


if __name__ == "__main__":
    main()
