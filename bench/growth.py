#!/usr/bin/env python3
"""Draws docs/growth.svg: how the time of loads and of classes of queries grows from a release at a tenth of the size to one
of full size, from bench/queries.csv and bench/loads.csv. Both axes are logarithmic."""
import csv
import html
import math
import pathlib

HERE = pathlib.Path(__file__).resolve().parent
SMALL, FULL = "0.1", "1.0"
LEFT, TOP, WIDTH, HEIGHT, LEGEND = 70, 30, 360, 420, 250
COLOURS = ["#1b6ca8", "#c0392b", "#27864e", "#8e44ad", "#b9770e", "#16807a", "#7f8c8d", "#2c3e50", "#d35400", "#5b7f00", "#a3195b", "#34709e", "#795548"]


def read(name):
    with open(HERE / name, encoding="utf-8", newline="") as it:
        return list(csv.DictReader(it))


def mean(numbers):
    return math.exp(sum(map(math.log, numbers)) / len(numbers))


def lines():
    """Pairs of a name and the milliseconds at both sizes: of a load and a check, and of the mean query of each class."""
    loads = {row["release"]: row for row in read("loads.csv")}
    for name, column in (("load with all indexes", "load_seconds"), ("check", "check_seconds")):
        yield name, [1000 * float(loads[size][column]) for size in (SMALL, FULL)]
    queries = read("queries.csv")
    for kind in dict.fromkeys(row["class"] for row in queries):
        yield kind, [mean([float(row["first_ms"]) for row in queries if row["class"] == kind and row["release"] == size]) for size in (SMALL, FULL)]


def height(milliseconds):
    """The place of a time on the upright axis, which goes from 0.01 to 10,000 milliseconds."""
    return TOP + HEIGHT * (4 - math.log10(milliseconds)) / 6


def drawing():
    yield f'<svg xmlns="http://www.w3.org/2000/svg" viewBox="0 0 {LEFT + WIDTH + LEGEND} {TOP + HEIGHT + 50}" font-family="sans-serif" font-size="12">'
    yield '<rect width="100%" height="100%" fill="white"/>'
    for power in range(-2, 5):
        y = height(10**power)
        yield f'<line x1="{LEFT}" y1="{y:.1f}" x2="{LEFT + WIDTH}" y2="{y:.1f}" stroke="#dddddd"/>'
        yield f'<text x="{LEFT - 8}" y="{y + 4:.1f}" text-anchor="end">{10**power:g} ms</text>'
    ends = []
    for number, (name, (small, full)) in enumerate(lines()):
        colour = COLOURS[number % len(COLOURS)]
        yield f'<line x1="{LEFT}" y1="{height(small):.1f}" x2="{LEFT + WIDTH}" y2="{height(full):.1f}" stroke="{colour}" stroke-width="2"/>'
        ends.append((height(full), f"{name}, {full / small:.1f} times", colour))
    below = 0
    for y, text, colour in sorted(ends):
        # names stand beside the ends of their lines, one below the other
        below = max(y + 4, below + 14)
        yield f'<text x="{LEFT + WIDTH + 8}" y="{below:.1f}" fill="{colour}">{html.escape(text.replace("`", ""))}</text>'
    yield f'<text x="{LEFT}" y="{TOP + HEIGHT + 25}">580,005 lines</text>'
    yield f'<text x="{LEFT + WIDTH}" y="{TOP + HEIGHT + 25}" text-anchor="end">5,800,005 lines</text>'
    yield "</svg>"


(HERE.parent / "docs" / "growth.svg").write_text("\n".join(drawing()) + "\n", encoding="utf-8")
