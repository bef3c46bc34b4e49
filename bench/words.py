#!/usr/bin/env python3
"""Lists the words of names that an outsider may not know.

    words.py            lists each word that stands neither in docs/GLOSSARY.md nor in bench/words.txt, with a name
    words.py --unused   lists the words of bench/words.txt that no name has

A word is a part of a name in `src/` or `specs/` of a crate, or of a declared name in its `proofs/`: `add_list` has two.
bench/words.txt has the words of plain English, of SNOMED CT, of Rust and of Rattle's library; a word with a sense of its
own in this project belongs in the glossary. Words of one or two letters are passed over. The status is 1 if a word is
listed.
"""
import re
import sys
from collections.abc import Iterator
from pathlib import Path

ROOT = Path(__file__).resolve().parent.parent
NAME = re.compile(r"[A-Za-z_][A-Za-z0-9_]*")
WORD = re.compile(r"[A-Z]+(?![a-z])|[A-Z]?[a-z]+")
COMMENT = {".rt": re.compile(r"//[^\n]*"), ".antt": re.compile(r"(^|\s)--[^\n]*")}
TEXT = re.compile(r'b?"(\\.|[^"\\])*"', re.S)
# what a proof file declares: a lemma or a definition, at the start of a line or of a line of a module
DECLARED = re.compile(r"^ *(?:pub )?(?:abbrev |data |record )?([A-Za-z_][A-Za-z0-9_-]*) :", re.M)


def words_of(name: str) -> Iterator[str]:
    """The words of a name, in lower case."""
    return (word.lower() for word in WORD.findall(name))


def names_in(path: Path) -> Iterator[str]:
    """The names of a file: of code and definitions all, of proofs those that are declared."""
    text = COMMENT[path.suffix].sub(" ", TEXT.sub(" ", path.read_text("utf-8")))
    if "proofs" in path.parts:
        return (match.group(1) for match in DECLARED.finditer(text))
    return (match.group(0) for match in NAME.finditer(text))


def known_words() -> set[str]:
    """The words of the list and of the entries of the glossary."""
    words: set[str] = set()
    for line in (ROOT / "bench/words.txt").read_text("utf-8").splitlines():
        if not line.startswith("#"):
            words.update(line.split())
    for entry in re.findall(r"^- \*\*(.*?)\*\*", (ROOT / "docs/GLOSSARY.md").read_text("utf-8"), re.M):
        words.update(re.findall(r"[a-z]+", entry.lower()))
    return words


def found_words() -> dict[str, str]:
    """Each word of the names of the crates, with one name that has it, and its file."""
    found: dict[str, str] = {}
    for path in sorted((ROOT / "crates").glob("*/*/**/*")):
        if path.suffix not in COMMENT or path.relative_to(ROOT).parts[2] not in ("src", "specs", "proofs"):
            continue
        for name in names_in(path):
            for word in words_of(name):
                if len(word) > 2:
                    found.setdefault(word, f"{name}  {path.relative_to(ROOT)}")
    return found


def main() -> int:
    """Prints what is listed, and answers the status."""
    found = found_words()
    if "--unused" in sys.argv[1:]:
        for word in sorted(known_words() - found.keys()):
            print(word)
        return 0
    new = sorted(found.keys() - known_words())
    for word in new:
        print(f"{word}  in {found[word]}")
    return 1 if new else 0


if __name__ == "__main__":
    sys.exit(main())
