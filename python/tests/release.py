"""A release for tests: concepts that form a tree, in which each concept has three children. What a constraint
denotes over it follows from the places of concepts in the tree."""
from __future__ import annotations

import os

CONCEPTS = 3000

# The group of symmetries of a pentagon, and the permutation of each place, by which Verhoeff's check digit is made.
_PRODUCT = [
    [
        (a + b) % 5 if a < 5 and b < 5 else (a + b) % 5 + 5 if a < 5 else (a - b) % 5 + 5 if b < 5 else (a - b) % 5
        for b in range(10)
    ]
    for a in range(10)
]
_PLACES = [[0, 1, 2, 3, 4, 5, 6, 7, 8, 9], [1, 5, 7, 6, 2, 8, 3, 0, 9, 4]]
while len(_PLACES) < 8:
    _PLACES.append([_PLACES[-1][it] for it in _PLACES[1]])

HEADER = {
    "Concept": "id\teffectiveTime\tactive\tmoduleId\tdefinitionStatusId",
    "Relationship": "id\teffectiveTime\tactive\tmoduleId\tsourceId\tdestinationId\trelationshipGroup\ttypeId\t"
    "characteristicTypeId\tmodifierId",
    "Description": "id\teffectiveTime\tactive\tmoduleId\tconceptId\tlanguageCode\ttypeId\tterm\tcaseSignificanceId",
}
MODULE, PRIMITIVE, IS_A = 900000000000207008, 900000000000074008, 116680003
INFERRED, MODIFIER, FULL_NAME, CASE = (
    900000000000011006,
    900000000000451002,
    900000000000003001,
    900000000000448009,
)


def with_check_digit(digits: str) -> int:
    """Returns the identifier that begins with these digits (Release File Specification, "Check-digit")."""
    check = 0
    for place, digit in enumerate(reversed(digits), 1):
        check = _PRODUCT[check][_PLACES[place % 8][int(digit)]]
    inverse = next(it for it in range(10) if _PRODUCT[check][it] == 0)
    return int(f"{digits}{inverse}")


IDENTIFIERS = [with_check_digit(f"{1000 + place}00") for place in range(CONCEPTS)]
PLACES = {identifier: place for place, identifier in enumerate(IDENTIFIERS)}

# An identifier of no concept of the release.
UNKNOWN = with_check_digit("90000000")


def name(place: int) -> str:
    """A name; some have in them what ends a name, or a line break other than LF."""
    odd = ["", "\r", "\x85", "\u2028", "| ", " |x|", "\x0b\x0c"][place % 7] if place % 5 == 0 else ""
    return f"Concept {place}{odd} é (finding)"


def children(place: int) -> list[int]:
    return [it for it in range(3 * place + 1, 3 * place + 4) if it < CONCEPTS]


def descendants(place: int) -> list[int]:
    """Returns the places of the descendants, rising."""
    found, level = [], children(place)
    while level:
        found += level
        level = [child for it in level for child in children(it)]
    return found


def write(folder: str) -> None:
    """Writes the files of the release."""
    rows: dict[str, list[str]] = {kind: [] for kind in HEADER}
    for place, identifier in enumerate(IDENTIFIERS):
        front = f"20240101\t1\t{MODULE}"
        rows["Concept"].append(f"{identifier}\t{front}\t{PRIMITIVE}")
        row = with_check_digit(f"{1000 + place}01")
        rows["Description"].append(f"{row}\t{front}\t{identifier}\ten\t{FULL_NAME}\t{name(place)}\t{CASE}")
        if place:
            row, parent = with_check_digit(f"{1000 + place}02"), IDENTIFIERS[(place - 1) // 3]
            rows["Relationship"].append(f"{row}\t{front}\t{identifier}\t{parent}\t0\t{IS_A}\t{INFERRED}\t{MODIFIER}")
    for kind, lines in rows.items():
        middle = "Description_Snapshot-en" if kind == "Description" else f"{kind}_Snapshot"
        path = os.path.join(folder, f"sct2_{middle}_INT_20240101.txt")
        with open(path, "w", encoding="utf-8", newline="") as file:
            file.write("".join(f"{line}\r\n" for line in [HEADER[kind], *lines]))
