#!/usr/bin/env python3
"""Speaks the protocol of `session` as the stand-in of `python/tests` does. It also knows OR, `^`, brackets, the rows
that `sample.py` adds, and a constraint that takes a minute."""
import os
import re
import sys
import time
from itertools import accumulate

HERE = os.path.dirname(os.path.abspath(__file__))
OTHER = os.path.join(os.path.dirname(os.path.dirname(HERE)), "python", "tests")
sys.path.insert(0, OTHER)

import release  # noqa: E402
import stand_in  # noqa: E402

INACTIVE = release.with_check_digit("80000000")
OWNER, TYPE, OTHER_TYPE, VALUE, SET = 5, 6, 7, 8, 9

denoted_there, described_there, line = stand_in.denoted, stand_in.described, stand_in.line


def parts_of(text, word):
    """Returns the parts of a text between words that stand outside brackets."""
    parts, depth, start = [], 0, 0
    for found in re.finditer(rf"[()]|(?<= ){word}(?= )", text):
        if found[0] in "()":
            depth += 1 if found[0] == "(" else -1
        elif depth == 0:
            parts.append(text[start : found.start()])
            start = found.end()
    return [*parts, text[start:]]


def is_in_brackets(text):
    """Returns whether the first bracket of a text is closed by its last character."""
    depth = 0
    for place, character in enumerate(text):
        depth += {"(": 1, ")": -1}.get(character, 0)
        if depth <= 0:
            return text.startswith("(") and place == len(text) - 1
    return False


def denoted(text):
    if "|slow|" in text:
        time.sleep(60)
    text = re.sub(r"\|[^|]*\||/\*.*?\*/", " ", text).strip(" \t\r")
    if text in stand_in.REFUSALS or text.count("(") != text.count(")"):
        return stand_in.REFUSALS.get(text, "ERR syntax")
    if max(accumulate((character == "(") - (character == ")") for character in text or " ")) > 64:
        return "ERR depth"
    for word, join in (("OR", set.union), ("AND", set.intersection)):
        parts = parts_of(text, word)
        if len(parts) > 1:
            sides = [denoted(part) for part in parts]
            refusals = [side for side in sides if isinstance(side, str)]
            return refusals[0] if refusals else sorted(join(*map(set, sides)))
    if is_in_brackets(text):
        return denoted(text[1:-1])
    if text.startswith("^"):
        found = denoted(text[1:])
        return found if isinstance(found, str) else [OWNER] if SET in found else []
    return denoted_there(text)


def described(text):
    digits = text.partition("|")[0].strip(" \t\r")
    if digits.isascii() and digits.isdigit() and digits.startswith("0"):
        return ["ERR id zero"]
    if digits == str(INACTIVE):
        return [f"INACTIVE {digits}"]
    lines = described_there(text)
    if digits == str(release.IDENTIFIERS[OWNER]):
        rows = [
            f"0 {line(OTHER_TYPE)} {line(VALUE)}",
            f"1 {line(TYPE)} {line(VALUE)}",
            f"1 {line(OTHER_TYPE)} #2.5",
            f"2 {line(TYPE)} #0.100000000000000001",
        ]
        lines[-2:] = ["ATTRIBUTES 4", *rows, "MEMBER-OF 1", line(SET)]
    return lines


stand_in.denoted, stand_in.described = denoted, described
stand_in.main()
