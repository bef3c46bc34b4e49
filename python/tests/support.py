"""What the tests share: the release, written once, and the program that they run over: the built one that the
variable HOSECRAG names, or else the stand-in."""
from __future__ import annotations

import atexit
import os
import shlex
import sys
import tempfile
from typing import Any

HERE = os.path.dirname(os.path.abspath(__file__))
sys.path.insert(0, os.path.dirname(HERE))

import hosecrag  # noqa: E402
import release  # noqa: E402

_folder = tempfile.TemporaryDirectory()
atexit.register(_folder.cleanup)
FOLDER = os.path.join(_folder.name, "release")
os.mkdir(FOLDER)
release.write(FOLDER)


def _stand_in() -> str:
    """Writes a program that runs the stand-in by this Python, without what makes a start slow."""
    path = os.path.join(_folder.name, "stand_in")
    with open(path, "w") as script:
        script.write(f'#!/bin/sh\nexec {shlex.quote(sys.executable)} -S -E {shlex.quote(HERE)}/stand_in.py "$@"\n')
    os.chmod(path, 0o755)
    return path


PROGRAM = os.environ.get("HOSECRAG") or _stand_in()


def engine(**options: Any) -> hosecrag.Hosecrag:
    return hosecrag.Hosecrag(FOLDER, program=PROGRAM, **options)


def concepts(places: list[int]) -> list[hosecrag.Concept]:
    return [hosecrag.Concept(release.IDENTIFIERS[it], release.name(it)) for it in places]


# Constraints whose answers differ in number, with the places of their concepts: a large answer, middling ones,
# small ones.
CONSTRAINTS = [("*", list(range(release.CONCEPTS)))]
for _place in (0, 1, 2, 5, 40, 700, 2500):
    CONSTRAINTS.append((f"<{release.IDENTIFIERS[_place]}", release.descendants(_place)))
    CONSTRAINTS.append((f"<<{release.IDENTIFIERS[_place]} |term|", [_place, *release.descendants(_place)]))
