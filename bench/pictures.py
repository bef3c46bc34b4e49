#!/usr/bin/env python3
"""Draws two pictures of docs/DESIGN.md: docs/layers.svg, the layers and their crates, and docs/row.svg, the way of a
row from its file to the columns.

    python3 bench/pictures.py [--check]

The layers are those of the code block under "Layers and crates", from the lowest up. With `--check` the script
writes nothing, and its status is 1 if a picture is old."""
from __future__ import annotations

import argparse
import html
import pathlib
import re
import sys
from typing import Iterator, List, Tuple

DOCS = pathlib.Path(__file__).resolve().parent.parent / "docs"
CRATE = re.compile(r" (?P<layer>[a-z]+)? +(?P<crate>[a-z0-9_]+)  +(?P<text>\S.*)")
COLOURS = ["#e8eef4", "#e6f2ea", "#fbf1e0", "#f3e9f5", "#e4f3f2", "#f9e8e6"]
BOX_WIDTH, BOX_HEIGHT, GAP, LABEL, IN_ROW = 142, 30, 8, 90, 5

# The shapes of one attribute row: the crate that makes each, the shape, and what it holds of Beta's row.
ROW: List[Tuple[str, str, str]] = [
    ("streams", "piece", "up to 64 KiB of the file"),
    ("release_files", "Line", "number 12, its 97 bytes"),
    ("rf2_rows", "RelationshipRow", "source 101009, type 104001, destination 106004, group 1, active, inferred"),
    ("row_lists", "KeptRow", "the identifiers, if the row counts"),
    ("held_release", "NumberedRow", "source 1, group 1, type 104001, value 6"),
    ("held_release", "CodedRow", "source 1, type place 0, group 1, value 6; rows stand by source"),
    ("postings", "columns", "by type: source, value, group 0 of all; by value: source, type, group"),
]


def layers() -> List[Tuple[str, List[str]]]:
    """Returns each layer with its crates."""
    text = (DOCS / "DESIGN.md").read_text(encoding="utf-8")
    block = text.split("## Layers and crates", 1)[1].split("```")[1]
    found: List[Tuple[str, List[str]]] = []
    for line in block.splitlines():
        it = CRATE.fullmatch(line)
        if it is None:
            continue
        if it["layer"]:
            found.append((it["layer"], []))
        found[-1][1].append(it["crate"])
    return found


def start(width: int, height: int) -> str:
    return (
        f'<svg xmlns="http://www.w3.org/2000/svg" viewBox="0 0 {width} {height}" font-family="sans-serif"'
        f' font-size="12">\n<rect width="100%" height="100%" fill="white"/>'
    )


def box(x: int, y: int, width: int, height: int, fill: str) -> str:
    return f'<rect x="{x}" y="{y}" width="{width}" height="{height}" rx="4" fill="{fill}" stroke="#8a97a5"/>'


def words(x: int, y: int, text: str, more: str = "") -> str:
    return f'<text x="{x}" y="{y}"{more}>{html.escape(text)}</text>'


def layers_drawn() -> Iterator[str]:
    found = list(reversed(layers()))
    rows = [-(-len(crates) // IN_ROW) for _, crates in found]
    width = LABEL + IN_ROW * (BOX_WIDTH + GAP) + GAP
    yield start(width, sum(rows) * (BOX_HEIGHT + GAP) + len(found) * GAP + GAP)
    y = GAP
    for number, ((layer, crates), count) in enumerate(zip(found, rows)):
        colour = COLOURS[number % len(COLOURS)]
        yield words(GAP, y + 20, layer, ' font-weight="bold"')
        for place, crate in enumerate(crates):
            x = LABEL + place % IN_ROW * (BOX_WIDTH + GAP)
            top = y + place // IN_ROW * (BOX_HEIGHT + GAP)
            yield box(x, top, BOX_WIDTH, BOX_HEIGHT, colour)
            yield words(x + BOX_WIDTH // 2, top + 20, crate, ' text-anchor="middle"')
        y += count * (BOX_HEIGHT + GAP) + GAP
    yield "</svg>"


def row_drawn() -> Iterator[str]:
    height, width = 34, 700
    yield start(width, len(ROW) * (height + 14) + GAP)
    for number, (crate, shape, holds) in enumerate(ROW):
        y = GAP + number * (height + 14)
        if number:
            yield f'<path d="M 185 {y - 14} v 9 m -4 -4 l 4 5 l 4 -5" stroke="#55606c" fill="none"/>'
        yield words(GAP, y + 21, crate, ' fill="#55606c"')
        yield box(115, y, 140, height, COLOURS[number % len(COLOURS)])
        yield words(185, y + 21, shape, ' text-anchor="middle" font-weight="bold"')
        yield words(270, y + 21, holds)
    yield "</svg>"


def main() -> None:
    options = argparse.ArgumentParser(description="Draws the pictures of docs/DESIGN.md.")
    options.add_argument("--check", action="store_true", help="only say whether a picture is old")
    check = options.parse_args().check
    old = 0
    for name, drawing in (("layers.svg", layers_drawn()), ("row.svg", row_drawn())):
        path, text = DOCS / name, "\n".join(drawing) + "\n"
        if check and (not path.is_file() or path.read_text(encoding="utf-8") != text):
            print(f"docs/{name} is old: run bench/pictures.py")
            old = 1
        if not check:
            path.write_text(text, encoding="utf-8")
    sys.exit(old)


if __name__ == "__main__":
    main()
