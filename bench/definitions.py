#!/usr/bin/env python3
"""Writes bench/definitions.csv, the index of definitions, laws and lemmas.

    bench/definitions.py [--check]

The index has a line for each file of definitions (`specs/`, with its subfolders), of laws (`src/laws.rt`) and of lemmas
(the files directly in `proofs/`): its crate, its path in the repository, and the first sentence of the comment that it
begins with. Crates are in the order of crates.txt. Within a crate definitions come first, then laws, then lemmas, each
by name. A file `Lib.antt` only lists modules and has no line.

With `--check` the script writes nothing. It ends with status 1, and names the first line that differs, if the file is
not what it would write.
"""
import csv
import io
import pathlib
import re
import sys
from typing import Iterator, List

ROOT = pathlib.Path(__file__).resolve().parent.parent
INDEX = ROOT / "bench" / "definitions.csv"
COMMENT = re.compile(r"(?:--|//!|//) ?(.*)")
SENTENCE = re.compile(r".*?[.!?](?=\s+[A-Z\"`|]|$)")


def crates() -> List[str]:
    """The names of crates, in the order of crates.txt."""
    lines = (ROOT / "crates.txt").read_text(encoding="utf-8").splitlines()
    names = [line.split(":")[0] for line in lines if ":" in line and not line.startswith("#")]
    missing = sorted({it.name for it in (ROOT / "crates").iterdir() if it.is_dir()} - set(names))
    if missing:
        sys.exit(f"definitions: crates.txt does not name crates/{missing[0]}")
    return names


def files(crate: str) -> Iterator[pathlib.Path]:
    """The files of a crate that have a line, in order."""
    folder = ROOT / "crates" / crate
    for found in (folder.glob("specs/**/*.antt"), folder.glob("src/laws.rt"), folder.glob("proofs/*.antt")):
        yield from sorted(it for it in found if it.name != "Lib.antt")


def first_sentence(file: pathlib.Path) -> str:
    """The first sentence of the comment that a file begins with."""
    texts = []
    for line in file.read_text(encoding="utf-8").splitlines():
        comment = COMMENT.fullmatch(line)
        if not comment or not comment.group(1):
            break
        texts.append(comment.group(1).strip())
    if not texts:
        sys.exit(f"definitions: {file.relative_to(ROOT)} does not begin with a comment")
    text = " ".join(texts)
    sentence = SENTENCE.match(text)
    return sentence.group() if sentence else text


def index() -> str:
    """The text of the index."""
    text = io.StringIO()
    rows = csv.writer(text, lineterminator="\n")
    rows.writerow(["crate", "file", "comment"])
    for crate in crates():
        for file in files(crate):
            rows.writerow([crate, file.relative_to(ROOT).as_posix(), first_sentence(file)])
    return text.getvalue()


def check(wanted: str) -> None:
    """Ends the script with a message if the file is not the index."""
    lines = wanted.splitlines()
    kept = INDEX.read_text(encoding="utf-8").splitlines() if INDEX.is_file() else []
    for number in range(max(len(lines), len(kept))):
        has, wants = (it[number] if number < len(it) else "no line" for it in (kept, lines))
        if has != wants:
            sys.exit(f"definitions: bench/definitions.csv is old, run bench/definitions.py\nline {number + 1} has    {has}\nand must be {wants}")


def main() -> None:
    if sys.argv[1:] not in ([], ["--check"]):
        sys.exit("usage: bench/definitions.py [--check]")
    text = index()
    if sys.argv[1:]:
        check(text)
    else:
        INDEX.write_bytes(text.encode())


main()
