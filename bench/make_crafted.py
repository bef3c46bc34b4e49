#!/usr/bin/env python3
"""Makes a release that is meant to burn time or memory: KIND and FOLDER.

    layers     100 layers of 100 concepts, each under all of the next layer
    chain      20,000 concepts, each under the next
    members    200,000 members whose UUIDs have one half in common, which a hash with a fixed seed puts in one place
    decimals   as many decimals of that kind

With --ordinary the members and the decimals are such as any release has, to compare with.
"""
import argparse
import pathlib
import random
import uuid

from make_release import INFERRED, IS_A, MODULE, ROOT, SOME, identifier, write_concepts

# The hash of the toolchain's tables multiplies the two halves of 16 bytes, the low one after an exclusive or with what it
# begins at, the high one after one with 2^64 by the golden ratio. A half that is that very number makes the product 0,
# whatever the other is.
LOW = 0x243F6A8885A308D3 + 16
HIGH = 0x9E3779B97F4A7C15
ROWS = 200_000


def crafted(count):
    """Numbers of 128 bits of which one half is the same, half of them in the one half and half in the other."""
    for number in range(count // 2):
        yield HIGH << 64 | number
        yield number << 64 | LOW


def write_is_a(path, concepts, pairs):
    with open(path, "w", newline="") as file:
        file.write("id\teffectiveTime\tactive\tmoduleId\tsourceId\tdestinationId\trelationshipGroup\ttypeId\tcharacteristicTypeId\tmodifierId\r\n")
        for row, (child, parent) in enumerate(pairs):
            file.write(f"{identifier(100_000 + row, '02')}\t20240101\t1\t{MODULE}\t{concepts[child][0]}\t{concepts[parent][0]}\t0\t{IS_A}\t{INFERRED}\t{SOME}\r\n")


def concepts_of(count):
    return [(ROOT, 1), *((identifier(100_000 + number, "00"), 1) for number in range(1, count))]


def write_layers(folder, _):
    concepts = concepts_of(10_000)
    write_concepts(folder / "sct2_Concept_Snapshot_INT_20240101.txt", concepts)
    pairs = ((layer * 100 + child, (layer - 1) * 100 + parent) for layer in range(1, 100) for child in range(100) for parent in range(100))
    write_is_a(folder / "sct2_Relationship_Snapshot_INT_20240101.txt", concepts, pairs)


def write_chain(folder, _):
    concepts = concepts_of(20_000)
    write_concepts(folder / "sct2_Concept_Snapshot_INT_20240101.txt", concepts)
    write_is_a(folder / "sct2_Relationship_Snapshot_INT_20240101.txt", concepts, ((number, number - 1) for number in range(1, 20_000)))


def write_members(folder, ordinary):
    source = random.Random(1)
    concepts = concepts_of(100)
    write_concepts(folder / "sct2_Concept_Snapshot_INT_20240101.txt", concepts)
    numbers = (source.getrandbits(128) for _ in range(ROWS)) if ordinary else crafted(ROWS)
    with open(folder / "der2_Refset_SimpleSnapshot_INT_20240101.txt", "w", newline="") as file:
        file.write("id\teffectiveTime\tactive\tmoduleId\trefsetId\treferencedComponentId\r\n")
        for number in numbers:
            file.write(f"{uuid.UUID(int=number)}\t20240101\t1\t{MODULE}\t{concepts[1][0]}\t{concepts[2][0]}\r\n")


def write_decimals(folder, ordinary):
    source = random.Random(1)
    concepts = concepts_of(100)
    write_concepts(folder / "sct2_Concept_Snapshot_INT_20240101.txt", concepts)
    # so many times 10^-18, below 10^36: the high half stays small
    numbers = (source.randrange(10**36) for _ in range(ROWS)) if ordinary else (number << 64 | LOW for number in range(ROWS))
    with open(folder / "sct2_RelationshipConcreteValues_Snapshot_INT_20240101.txt", "w", newline="") as file:
        file.write("id\teffectiveTime\tactive\tmoduleId\tsourceId\tvalue\trelationshipGroup\ttypeId\tcharacteristicTypeId\tmodifierId\r\n")
        for row, number in enumerate(numbers):
            value = f"#{number // 10**18}.{number % 10**18:018}"
            file.write(f"{identifier(100_000 + row, '02')}\t20240101\t1\t{MODULE}\t{concepts[1 + row % 99][0]}\t{value}\t0\t{concepts[1][0]}\t{INFERRED}\t{SOME}\r\n")


KINDS = {"layers": write_layers, "chain": write_chain, "members": write_members, "decimals": write_decimals}


def make(kind, folder, ordinary=False):
    folder = pathlib.Path(folder)
    folder.mkdir(parents=True, exist_ok=True)
    KINDS[kind](folder, ordinary)


def main():
    words = argparse.ArgumentParser(description=__doc__, formatter_class=argparse.RawDescriptionHelpFormatter)
    words.add_argument("kind", choices=KINDS)
    words.add_argument("folder", type=pathlib.Path)
    words.add_argument("--ordinary", action="store_true")
    asked = words.parse_args()
    make(asked.kind, asked.folder, asked.ordinary)


if __name__ == "__main__":
    main()
