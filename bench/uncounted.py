#!/usr/bin/env python3
"""Shows that the crates that execute plans read no list without counting it.

    bench/uncounted.py

The proofs show that what `reading` hands out is counted. The types show that beside it a `Reader`, and `Lengths` of
`postings`, give numbers alone. This script shows, by the words of the code without comments and contracts, that nothing
is read past them:

- One call opens a `Reader`: that in `execute` (crates/executor/src/plans.rt).
- candidates, pair_sets, walks and executor name indexes and a release, and their types, nowhere but in `execute`. It
  gives both to the reader, and does nothing else with them.

Each fault is printed with its file and line, and then `uncounted: N faults`. The status is 1 if there is one.
"""
import pathlib
import re
import sys
from typing import Iterator, List, NamedTuple

ROOT = pathlib.Path(__file__).resolve().parent.parent
EXECUTING = ["candidates", "pair_sets", "walks", "executor"]
EXECUTE = "crates/executor/src/plans.rt"
CLAUSE = re.compile(r"\s*(?:ghost use|requires|ensures|invariant|decreases)\b")
OPENED = re.compile(r"\bReader::open\b")

# What `execute` does with indexes and release: it imports them, is given them, and gives them to the reader.
GIVEN = re.compile(
    r"^use (?:held_release::Snapshot|postings::Indexes);$|^    snapshot: &Snapshot,$|^    indexes: &Indexes,$"
    r"|\bReader::open\(alloc, snapshot, indexes, \*visits\)"
)
HELD = re.compile(r"\b(?:Indexes|AncestorIndex|Snapshot|indexes|snapshot)\b")


class Fault(NamedTuple):
    file: str
    line: int
    text: str


def code_of(path: pathlib.Path) -> Iterator[str]:
    """The lines of a file, with nothing in the place of comments and contracts."""
    depth, in_clause = 0, False
    for line in path.read_text(encoding="utf-8").splitlines():
        code = re.sub(r"//.*", "", line)
        if not in_clause and CLAUSE.match(code):
            in_clause, depth = True, 0
        if in_clause:
            depth += code.count("{") - code.count("}")
            in_clause = depth > 0 or not code.rstrip().endswith(("}", ";"))
            code = ""
        yield code.rstrip()


def found(crates: List[str], pattern: "re.Pattern[str]", text: str) -> Iterator[Fault]:
    """A fault for each line of some crates in which a pattern stands, in `execute` beside what it may do."""
    for path in (it for crate in crates for it in sorted((ROOT / "crates" / crate / "src").rglob("*.rt"))):
        name = path.relative_to(ROOT).as_posix()
        for number, line in enumerate(code_of(path), 1):
            if pattern.search(GIVEN.sub("", line) if name == EXECUTE else line):
                yield Fault(name, number, text)


def main() -> None:
    others = [it.name for it in sorted((ROOT / "crates").iterdir()) if it.name != "reading"]
    faults = [*found(others, OPENED, "opens a reader"), *found(EXECUTING, HELD, "holds indexes or a release")]
    if sum(len(OPENED.findall(line)) for line in code_of(ROOT / EXECUTE)) != 1:
        faults.append(Fault(EXECUTE, 1, "does not open one reader"))
    for it in faults:
        print(f"{it.file}:{it.line}: {it.text}")
    print(f"uncounted: {len(faults)} faults")
    sys.exit(1 if faults else 0)


main()
