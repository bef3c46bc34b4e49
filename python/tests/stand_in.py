#!/usr/bin/env python3
"""Speaks the protocol of `session` over the release of `release.py`, in place of the built program. It knows a
concept, `*`, `<<` and `<` of a concept, and AND of two of these, and is told a few texts that are refused."""
from __future__ import annotations

import os
import re
import sys
from typing import Union

import release

REFUSALS = {
    "100005 XOR 101009": "ERR token 7",
    "*{{C active=1}}": "ERR unsupported 1 filter",
    "*) OR (*": "ERR syntax",
}


def denoted(text: str) -> Union[str, list[int]]:
    """Returns the places of the concepts of a text, rising, or the line that refuses it."""
    text = re.sub(r"\|[^|]*\||/\*.*?\*/", " ", text).strip(" \t\r")
    if text in REFUSALS or not text:
        return REFUSALS.get(text, "ERR syntax")
    left, word, right = text.partition(" AND ")
    if word:
        one, other = denoted(left), denoted(re.sub(r"^\((.*)\)$", r"\1", right.strip()))
        if isinstance(one, str) or isinstance(other, str):
            return one if isinstance(one, str) else other
        return sorted(set(one) & set(other))
    if text == "*":
        return list(range(release.CONCEPTS))
    found = re.fullmatch(r"(<?<?) *([0-9]{6,18})", text)
    if not found:
        return "ERR token 0"
    place = release.PLACES.get(int(found[2]))
    below = release.descendants(place) if found[1] and place is not None else []
    return below if found[1] == "<" or place is None else [place, *below]


def page(names: bool, offset: str, count: str, limit: str, text: str) -> list[str]:
    places = denoted(text)
    if isinstance(places, str):
        return [places]
    if "<" in text and limit != "-" and len(places) > int(limit):
        return [f"ERR bound {len(places)}"]
    shown = places[int(offset) :] if count == "-" else places[int(offset) : int(offset) + int(count)]
    return [f"OK {len(places)}", *(line(it) if names else str(release.IDENTIFIERS[it]) for it in shown)]


def line(place: int) -> str:
    return f"{release.IDENTIFIERS[place]} |{release.name(place)}|"


def plan(text: str) -> list[str]:
    places = denoted(text)
    if isinstance(places, str):
        return [places]
    return [f"PLAN {len(places)}", f"descendants-self {len(places)}", f" one {text.lstrip('<')} 0"]


def described(text: str) -> list[str]:
    digits = text.partition("|")[0].strip(" \t\r")
    if not 6 <= len(digits) <= 18:
        return ["ERR id length"]
    if release.with_check_digit(digits[:-1]) != int(digits):
        return ["ERR id check"]
    place = release.PLACES.get(int(digits))
    if place is None:
        return [f"UNKNOWN {digits}"]
    parents, children = [(place - 1) // 3] if place else [], release.children(place)
    lists = [f"PARENTS {len(parents)}", *map(line, parents), f"CHILDREN {len(children)}", *map(line, children)]
    return [f"CONCEPT {line(place)}", *lists, "ATTRIBUTES 0", "MEMBER-OF 0"]


def answered(request: str) -> list[str]:
    verb, _, rest = request.partition(" ")
    if len(request.encode()) > 65535:
        return ["ERR long"]
    if verb in ("list", "ids"):
        words = rest.split(" ", 3)
        return page(verb == "list", *words) if len(words) == 4 and words[3] else ["ERR request"]
    kind = {"explain": plan, "describe": described}.get(verb)
    return kind(rest) if kind and rest else ["ERR request"]


def main() -> None:
    folder = sys.argv[-1]
    if not os.path.isdir(folder):
        sys.exit(refused("REFUSED device", 1))
    if not any(it.startswith("sct2_Concept") for it in os.listdir(folder)):
        sys.exit(refused("REFUSED no-concept-file", 3))
    for request in sys.stdin.buffer:
        text = "".join(f"{it}\n" for it in answered(request.rstrip(b"\n").decode()))
        sys.stdout.buffer.write(text.encode())
        sys.stdout.buffer.flush()


def refused(text: str, status: int) -> int:
    print(text, file=sys.stderr)
    return status


if __name__ == "__main__":
    main()
