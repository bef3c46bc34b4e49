#!/usr/bin/env python3
"""Checks the documents: README.md, CONTRIBUTING.md, CHANGELOG.md, docs/*.md, and the README.md of examples/, python/ and
service/.

    bench/documents.py [--words N] [--program PATH]

- Each relative link or image points at a file.
- Each path of the repository in backticks or in a command exists, and a glob matches something. A name in backticks that
  ends in `.antt`, `.rt`, `.py`, `.sh`, `.csv` or `.md` is the name of a file, or the end of its path. The script does not
  look up a path with a part in capitals (`crates/NAME/out`), which stands for many, nor one with a part `out`, which a
  build makes.
- docs/DESIGN.md names each crate that is neither a program nor tests alone, in backticks or in a code block. A table whose
  first heading is `Crate` has in its first column no name in backticks that crates.txt does not have.
- All but those of examples/, python/ and service/ have at most N words together (20,000), as `wc -w` counts them.
- No absolute path stands in a document.

PATH is a built program. With it the script runs, from the root, each command of `./hosecrag` or `./look` whose output a
document shows, with PATH in place of these two, and compares the output. A document shows it below the command in the
same block, or, if the block is that command alone, as the next block of the section. The script leaves out a command
with a word in capitals (`FOLDER`), and one over a folder that is not in the repository.

The script prints each fault with its file and line, and then `documents: N faults`. Its status is 1 if there is one.
"""
import argparse
import fnmatch
import functools
import glob
import os
import pathlib
import re
import shlex
import subprocess
import sys
import urllib.parse
from typing import Iterator, List, NamedTuple, Optional, Tuple

ROOT = pathlib.Path(__file__).resolve().parent.parent
COUNTED = ["README.md", "CONTRIBUTING.md", "CHANGELOG.md"]
BESIDE = ["examples/README.md", "python/README.md", "service/README.md"]
DESIGN = "docs/DESIGN.md"
MADE = "out"
MODES = ["check", "query", "explain"]
VALUED = ["--lang", "--limit", "--first"]

LINK = re.compile(r"\]\(\s*<?([^)\s>]+)>?(?:\s+\"[^\"]*\")?\s*\)|^\s*\[[^\]]+\]:\s*<?([^\s>]+)|<img[^>]*\ssrc=\"([^\"]+)\"")
SPAN = re.compile(r"(?<!`)(`+)(?!`)(.+?)(?<!`)\1(?!`)")
SCHEME = re.compile(r"[a-z][a-z0-9+.-]*:")
ABSOLUTE = re.compile(r"(?<![\w./~])/(?:work|home|tmp|root)(?![\w-])")
NAMED = re.compile(r"[\w.*/-]*[\w*]\.(?:antt|rt|py|sh|csv|md)")
CAPITALS = re.compile(r"\[?[A-Z][A-Z_]*\]?")
FENCE = re.compile(r" {0,3}(```+|~~~+)")
ITEM = re.compile(r"\s{0,3}(?:[-*+]|\d+[.)])\s")
SHELL = re.compile(r"\$ |#|\./|printf |echo |cat |bash |cd |rt |RT_JOBS|python3 |(?:bench|examples)/")
COMMAND = re.compile(r"(?:(?:printf|echo|cat) (?:[^|'\"]|'[^']*'|\"[^\"]*\")*\| *)?\./(?:hosecrag|look)(?= |$)")
PROGRAM = re.compile(r"\./(?:hosecrag|look)(?=\s|$)")
QUOTED = re.compile(r"'[^']*'|\"[^\"]*\"")
STANDS_FOR = re.compile(r"\b(?:FOLDER|NAME|CODE|ID|CONSTRAINT)\b")


class Fault(NamedTuple):
    file: str
    line: int
    text: str


class Block(NamedTuple):
    """Lines of code without an empty line between them: `line` numbers the first, `section` the heading above."""

    line: int
    lines: List[str]
    section: int


class Document(NamedTuple):
    """`lines` has all lines of a document, `text` an empty line in the place of each line of code, `blocks` the code."""

    name: str
    lines: List[str]
    text: List[str]
    blocks: List[Block]


class Example(NamedTuple):
    """A command, the number of its line, and the output that a document shows."""

    line: int
    command: str
    output: List[str]


def code_of(lines: List[str]) -> List[Optional[str]]:
    """For each line the code that it has, or None if it is no line of code."""
    found: List[Optional[str]] = []
    fence, in_list, open_block = "", False, True
    for line in lines:
        mark = FENCE.match(line)
        if fence:
            ends = mark is not None and line.strip().startswith(fence) and not line.strip().strip(fence[0])
            found.append("" if ends else line)
            fence = "" if ends else fence
        elif mark:
            fence, open_block = mark.group(1), True
            found.append("")
        elif line.startswith("    ") and line.strip() and open_block and not in_list:
            found.append(line[4:])
        else:
            found.append(None)
            open_block = not line.strip() or line.startswith("#")
            if line.strip() and not line.startswith(" "):
                in_list = ITEM.match(line) is not None
    return found


def read(name: str) -> Document:
    lines = (ROOT / name).read_text(encoding="utf-8").splitlines()
    code = code_of(lines)
    blocks: List[Block] = []
    section, begun = 0, False
    for number, (line, part) in enumerate(zip(lines, code), 1):
        if part is None and line.startswith("#"):
            section = number
        if not part or not part.strip():
            begun = False
        elif begun:
            blocks[-1].lines.append(part)
        else:
            blocks.append(Block(number, [part], section))
            begun = True
    text = ["" if part is not None else line for line, part in zip(lines, code)]
    return Document(name, lines, text, blocks)


@functools.lru_cache(maxsize=None)
def all_files() -> List[str]:
    """The paths of all files, without those that a build makes."""
    found = []
    for folder, below, names in os.walk(ROOT):
        below[:] = [it for it in below if it not in (MADE, ".git", "__pycache__")]
        found += [(pathlib.Path(folder) / name).relative_to(ROOT).as_posix() for name in names]
    return found


@functools.lru_cache(maxsize=None)
def top() -> List[str]:
    return [name for name in os.listdir(ROOT) if name not in (".git", MADE)]


def words_in_backticks(document: Document) -> Iterator[Tuple[int, str]]:
    """The words in backticks, each with its line."""
    for number, line in enumerate(document.text, 1):
        for span in SPAN.finditer(line):
            for word in span.group(2).split():
                yield number, word


def words_of_commands(document: Document) -> Iterator[Tuple[int, str]]:
    """The words of commands in code, without what stands in quotes, each with its line."""
    for block in document.blocks:
        for number, line in enumerate(block.lines, block.line):
            if SHELL.match(line):
                for word in QUOTED.sub(" ", line).split():
                    yield number, word


def plain(word: str) -> str:
    """A word without what stands around a path."""
    return re.sub(r":\d+$|#[\w-]+$", "", word.strip("()[]<>\"',;:")).rstrip(".")


def is_open(parts: List[str]) -> bool:
    """Whether a path stands for many, or for something that a build makes."""
    return MADE in parts or any(CAPITALS.fullmatch(part) for part in parts)


def parts_of(path: str) -> List[str]:
    """The parts of a path, or none if it is absolute or has an elision."""
    if path.startswith("/") or ".." in path or "{" in path:
        return []
    return [part for part in path.split("/") if part not in ("", ".")]


def missing(word: str) -> Optional[str]:
    """What is wrong with a word that is a path of the repository."""
    path = plain(word)
    parts = parts_of(path)
    if not parts or is_open(parts) or not (path.startswith("./") or parts[0] in top()):
        return None
    name = "/".join(parts)
    is_folder = path.endswith("/")
    found = [it for it in glob.glob(f"{glob.escape(str(ROOT))}/{name}") if os.path.isdir(it) or not is_folder]
    return None if found else f"there is no {path}"


def unnamed(word: str) -> Optional[str]:
    """What is wrong with a word that is the name of a file, or the end of its path."""
    path = plain(word)
    parts = parts_of(path)
    if not parts or is_open(parts) or not NAMED.fullmatch(path):
        return None
    wanted = "*/" + "/".join(parts)
    return None if any(fnmatch.fnmatchcase("/" + file, wanted) for file in all_files()) else f"no file is named {path}"


def paths(document: Document) -> Iterator[Fault]:
    for number, word in words_in_backticks(document):
        fault = missing(word) or unnamed(word)
        if fault:
            yield Fault(document.name, number, fault)
    for number, word in words_of_commands(document):
        fault = missing(word)
        if fault:
            yield Fault(document.name, number, fault)


def links(document: Document) -> Iterator[Fault]:
    folder = (ROOT / document.name).parent
    for number, line in enumerate(document.text, 1):
        for found in LINK.finditer(SPAN.sub("", line)):
            target = next(it for it in found.groups() if it)
            path = urllib.parse.unquote(target.split("#")[0])
            if SCHEME.match(target) or not path:
                continue
            if path.startswith("/") or not (folder / path).is_file():
                yield Fault(document.name, number, f"the link {target} points at no file")


def absolute_paths(document: Document) -> Iterator[Fault]:
    for number, line in enumerate(document.lines, 1):
        for found in ABSOLUTE.finditer(line):
            yield Fault(document.name, number, f"an absolute path: {line[found.start():].split()[0]}")


def crates_in_tables(document: Document) -> Iterator[Fault]:
    """The names of the first column of tables of crates that are no crates."""
    lines = (ROOT / "crates.txt").read_text(encoding="utf-8").splitlines()
    known = {name for line in lines if not line.startswith("#") for name in re.findall(r"\w+", line)} | {"std"}
    head = ""
    for number, line in enumerate(document.text, 1):
        if not line.startswith("|"):
            head = ""
            continue
        cell = re.split(r"(?<!\\)\|", line)[1].strip()
        head = head or cell
        if head in ("Crate", "Crates"):
            for span in SPAN.finditer(cell):
                name = span.group(2)
                if re.fullmatch(r"[a-z][a-z0-9_]*", name) and name not in known:
                    yield Fault(document.name, number, f"there is no crate {name}")


def crates_left_out(design: Document) -> Iterator[Fault]:
    """The crates that docs/DESIGN.md does not name."""
    code = [word for _, word in words_in_backticks(design)] + [line for block in design.blocks for line in block.lines]
    named = {word for part in code for word in re.findall(r"\w+", part)}
    for folder in sorted((ROOT / "crates").iterdir()):
        is_library = (folder / "src" / "lib.rt").is_file() and not folder.name.endswith("_tests")
        if is_library and folder.name not in named:
            yield Fault(design.name, 1, f"it does not name the crate {folder.name}")


def too_long(documents: List[Document], most: int) -> Iterator[Fault]:
    counted = [it for it in documents if it.name in COUNTED or it.name.startswith("docs/")]
    counts = {it.name: sum(len(line.split()) for line in it.lines) for it in counted}
    total = sum(counts.values())
    if total > most:
        longest = sorted(counts, key=lambda name: -counts[name])[:3]
        names = ", ".join(f"{name} {counts[name]}" for name in longest)
        yield Fault(longest[0], 1, f"the documents have {total} words, and may have {most}; the longest: {names}")


def joined(block: Block) -> Iterator[Tuple[int, str]]:
    """The lines of a block, with those that a backslash continues made one."""
    begun, text = 0, ""
    for number, line in enumerate(block.lines, block.line):
        begun = begun or number
        if line.endswith("\\"):
            text += line[:-1]
            continue
        yield begun, text + line
        begun, text = 0, ""


def examples_in(document: Document) -> Iterator[Example]:
    """The commands whose output is shown."""
    for place, block in enumerate(document.blocks):
        begun: Optional[Example] = None
        for number, line in joined(block):
            if SHELL.match(line):
                if begun and begun.output:
                    yield begun
                begun = Example(number, line, []) if COMMAND.match(line) else None
            elif begun:
                begun.output.append(line)
        if begun and not begun.output and begun.line == block.line:
            below = document.blocks[place + 1] if place + 1 < len(document.blocks) else None
            if below and below.section == block.section and not SHELL.match(below.lines[0]):
                begun.output.extend(below.lines)
        if begun and begun.output:
            yield begun


def folders_of(words: List[str]) -> Iterator[str]:
    """The folders and files among the words that a program is given."""
    for last, word in zip([""] + words, words):
        if word == "|":
            return
        if word not in MODES and not word.startswith("-") and last not in VALUED:
            yield word.lstrip("<")


def can_run(command: str) -> bool:
    """Whether a command has no word that stands for another, and names no folder that is not here."""
    bare = QUOTED.sub("", command)
    begun = PROGRAM.search(bare)
    if not begun or STANDS_FOR.search(command) or re.search(r"[;&>$`()]|\.\.(?=\]|\s|$)", bare):
        return False
    words = bare[begun.end():].split()
    return not any(map(CAPITALS.fullmatch, words)) and all(it.split("/")[0] in top() for it in folders_of(words))


def written(command: str, program: str) -> Tuple[str, str]:
    """What a command writes to standard output and to standard error."""
    line = PROGRAM.sub(lambda _: shlex.quote(program), command)
    ended = subprocess.run(["bash", "-c", line], cwd=ROOT, stdin=subprocess.DEVNULL, capture_output=True, timeout=600)
    notes = [it for it in ended.stderr.decode(errors="replace").splitlines(keepends=True) if not it.startswith("look: ")]
    return ended.stdout.decode(errors="replace"), "".join(notes)


def difference(shown: List[str], found: List[str]) -> str:
    for number in range(max(len(shown), len(found))):
        wanted, has = (repr(it[number]) if number < len(it) else "nothing" for it in (shown, found))
        if wanted != has:
            return f"line {number + 1} of its output is shown as {wanted}, and the program writes {has}"
    return ""


def outputs(document: Document, program: str) -> Iterator[Fault]:
    for it in examples_in(document):
        if can_run(it.command):
            out, err = written(it.command, program)
            fault = difference(it.output, (out + err).splitlines())
            if fault:
                yield Fault(document.name, it.line, fault)


def names() -> List[str]:
    return COUNTED + sorted(it.relative_to(ROOT).as_posix() for it in (ROOT / "docs").glob("*.md")) + BESIDE


def faults(documents: List[Document], most: int, program: Optional[str]) -> Iterator[Fault]:
    for it in documents:
        found = [fault for check in (links, paths, absolute_paths, crates_in_tables) for fault in check(it)]
        found += crates_left_out(it) if it.name == DESIGN else []
        found += outputs(it, program) if program else []
        yield from sorted(found, key=lambda fault: fault.line)
    yield from too_long(documents, most)


def main() -> None:
    words = argparse.ArgumentParser(description="Checks the documents of the repository.")
    words.add_argument("--words", type=int, default=20000, metavar="N", help="the words that the documents may have (20000)")
    words.add_argument("--program", metavar="PATH", help="a built program, to run the examples by")
    asked = words.parse_args()
    program = os.path.abspath(asked.program) if asked.program else None
    if program and not os.access(program, os.X_OK):
        words.error(f"{asked.program} is no program")
    found = [Fault(name, 1, "it is missing") for name in [*COUNTED, DESIGN, *BESIDE] if not (ROOT / name).is_file()]
    found += faults([read(name) for name in names() if (ROOT / name).is_file()], asked.words, program)
    for it in dict.fromkeys(found):
        print(f"{it.file}:{it.line}: {it.text}")
    print(f"documents: {len(set(found))} faults")
    sys.exit(1 if found else 0)


main()
