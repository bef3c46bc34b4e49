#!/usr/bin/env python3
"""Measures a program that takes `query FOLDER` on one or more releases, class of queries by class: ./hosecrag of this
repository, beside another program where one is named. For each release: the seconds for reading its files and counting
their lines, those until the first answer, which is the load, and the peak of memory. For each query: the milliseconds from the write of its line to the last byte of its
answer, asked for the first time, and of one of many that wait on one pipe. Both programs are started and asked in turn;
of several rounds the middle one counts. The answers of both are compared byte for byte.

Without a folder it makes three releases by make_release.py, of which the last has its rows in no order; the queries
of classes.txt are made for these. Each line of a file of queries is a class, a tab and a query."""
import argparse
import hashlib
import math
import os
import pathlib
import shlex
import statistics
import subprocess
import sys
import tempfile
import time

HERE = pathlib.Path(__file__).resolve().parent
MADE = {"scale-0.1": ["--scale", "0.1"], "scale-1.0": ["--scale", "1.0"], "scale-1.0-no-order": ["--scale", "1.0", "--shuffled"]}
MOST_WAITING = 50
SECONDS_WAITING = 0.06


def made_releases(room):
    """The releases that are made where none is named, in a folder that keeps them for the next time."""
    for name, words in MADE.items():
        if not (room / name).is_dir():
            subprocess.run([sys.executable, HERE / "make_release.py", room / name, *words], check=True)
    return [room / name for name in MADE]


class Program:
    """A program that has loaded a release and answers queries through pipes."""

    def __init__(self, command, folder):
        start = time.perf_counter()
        self.process = subprocess.Popen([*command, "query", folder], stdin=subprocess.PIPE, stdout=subprocess.PIPE, bufsize=0)
        self.answer("0")
        self.load = time.perf_counter() - start

    def answer(self, query):
        """The pieces of one answer: a line that says how many follow, and these."""
        os.write(self.process.stdin.fileno(), f"{query}\n".encode())
        pieces, left = [], None
        while left is None or left > 0:
            piece = os.read(self.process.stdout.fileno(), 1 << 20)
            if not piece:
                sys.exit(f"the program ended at {query}")
            pieces.append(piece)
            if left is not None:
                left -= piece.count(b"\n")
            elif b"\n" in piece:
                start = b"".join(pieces)
                first = start.split(b"\n", 1)[0].split()
                left = 1 + int(first[1] if first[0] == b"OK" else 0) - start.count(b"\n")
        return pieces

    def timed(self, query, size, count):
        """The seconds for so many answers of a known size, all asked at once."""
        start = time.perf_counter()
        os.write(self.process.stdin.fileno(), f"{query}\n".encode() * count)
        left = size * count
        while left > 0:
            left -= len(os.read(self.process.stdout.fileno(), 1 << 20)) or sys.exit(f"the program ended at {query}")
        return (time.perf_counter() - start) / count

    def peak(self):
        """The most memory that the program had, in MiB."""
        status = pathlib.Path(f"/proc/{self.process.pid}/status").read_text()
        return next(int(line.split()[1]) / 1024 for line in status.splitlines() if line.startswith("VmHWM"))

    def end(self):
        self.process.stdin.close()
        self.process.wait()


def scan(folder):
    """The seconds for reading all files in pieces of 1 MiB, their bytes and their lines."""
    start, size, lines = time.perf_counter(), 0, 0
    for path in sorted(folder.rglob("*.txt")):
        with open(path, "rb", buffering=0) as file:
            while piece := file.read(1 << 20):
                size += len(piece)
                lines += piece.count(b"\n")
    return time.perf_counter() - start, size, lines


def ask(program, query):
    """An answer's digest and count of lines, the seconds of the first one and of one of many."""
    start = time.perf_counter()
    pieces = program.answer(query)
    first = time.perf_counter() - start
    answer = b"".join(pieces)
    once = program.timed(query, len(answer), 1)
    waiting = max(1, min(MOST_WAITING, int(SECONDS_WAITING / once)))
    many = min(program.timed(query, len(answer), waiting) for _ in range(2))
    return hashlib.sha256(answer).digest(), answer.count(b"\n") - 1, first, many


def measured(folder, commands, queries, rounds):
    """For each program its loads, peaks and what each query took, over all rounds."""
    figures = {name: {"load": [], "peak": [], "queries": []} for name in commands}
    for _ in range(rounds):
        for name, command in commands.items():
            program = Program(command, folder)
            found = [ask(program, query) for _, query in queries]
            figures[name]["load"].append(program.load)
            figures[name]["peak"].append(program.peak())
            figures[name]["queries"].append(found)
            program.end()
    return figures


def middle(figures, name, place, field):
    return statistics.median(found[place][field] for found in figures[name]["queries"])


def mean(ratios):
    """The geometric mean."""
    return math.exp(sum(map(math.log, ratios)) / len(ratios))


def times(figures, place, field):
    """The milliseconds of a query, and how many times the other program's time that is."""
    own, *others = (middle(figures, name, place, field) for name in figures)
    return 1000 * own, [own / other for other in others]


def cells(figures, places):
    """For each query its count of concepts and its two times; and for all of them the mean of the ratios and the greatest."""
    own = next(iter(figures.values()))["queries"][0]
    rows = []
    for place in places:
        found = [times(figures, place, field) for field in (2, 3)]
        rows.append([str(own[place][1])] + [f"{time:.3g}" + "".join(f" ({ratio:.2f})" for ratio in ratios) for time, ratios in found])
    ratios = [[ratio for place in places for ratio in times(figures, place, field)[1]] for field in (2, 3)]
    return rows, [""] + [f"{mean(each):.2f}, at most {max(each):.2f}" if each else "" for each in ratios]


def print_class(kind, queries, folders, all_figures):
    """A table of one class: a line for each query, and three columns for each release."""
    places = [place for place, (found, _) in enumerate(queries) if found == kind]
    heads = [f"{folder.name}: {head}" for folder in folders for head in ("concepts", "first", "many")]
    print(f"\n### {kind}\n\n| Query | " + " | ".join(heads) + " |\n" + "|---" * (len(heads) + 1) + "|")
    columns = [cells(figures, places) for figures in all_figures]
    for line, place in enumerate(places):
        print(f"| `{queries[place][1]}` | " + " | ".join(cell for rows, _ in columns for cell in rows[line]) + " |")
    if any(cell for _, means in columns for cell in means):
        print("| all | " + " | ".join(cell for _, means in columns for cell in means) + " |")


def print_releases(folders, all_figures):
    """A line for each release, with the load and the peak of each program."""
    names = list(all_figures[0])
    heads = ["Release", "Files", "Lines", "Reading", *(f"Load, {name}" for name in names), *(f"Peak, {name}" for name in names)]
    print("| " + " | ".join(heads) + " |\n" + "|---" * len(heads) + "|")
    for folder, figures in zip(folders, all_figures):
        seconds, size, lines = scan(folder)
        loads = [f"{statistics.median(figures[name]['load']):.2f} s" for name in names]
        peaks = [f"{max(figures[name]['peak']):.0f} MiB" for name in names]
        print(" | ".join([f"| {folder.name}", f"{size / 1e6:.0f} MB", f"{lines:,}", f"{seconds:.2f} s", *loads, *peaks]) + " |")


def differing(queries, all_figures):
    """The queries to which two programs, or one in two rounds, gave different answers."""
    for figures in all_figures:
        rounds = [found for each in figures.values() for found in each["queries"]]
        for place, (_, query) in enumerate(queries):
            if len({found[place][0] for found in rounds}) > 1:
                yield query


def read_queries(path):
    lines = [line.split("\t", 1) for line in path.read_text().splitlines() if line and not line.startswith("#")]
    return [(kind, query) for kind, query in lines]


def main():
    words = argparse.ArgumentParser(description=__doc__, formatter_class=argparse.RawDescriptionHelpFormatter)
    words.add_argument("folder", type=pathlib.Path, nargs="*")
    words.add_argument("--program", default=str(HERE.parent / "hosecrag"), help="the command before `query FOLDER`")
    words.add_argument("--other", help="the command of another program, to stand beside it")
    words.add_argument("--queries", type=pathlib.Path, default=HERE / "classes.txt")
    words.add_argument("--rounds", type=int, default=3)
    words.add_argument("--room", type=pathlib.Path, default=pathlib.Path(tempfile.gettempdir()) / "hosecrag-releases", help="where releases are made")
    asked = words.parse_args()
    folders = asked.folder or made_releases(asked.room)
    queries = read_queries(asked.queries)
    commands = {"this": shlex.split(asked.program)} | ({"other": shlex.split(asked.other)} if asked.other else {})
    all_figures = [measured(folder, commands, queries, asked.rounds) for folder in folders]
    print_releases(folders, all_figures)
    for kind in dict.fromkeys(kind for kind, _ in queries):
        print_class(kind, queries, folders, all_figures)
    wrong = list(differing(queries, all_figures))
    print("\nall answers are the same" if not wrong else "\nanswers differ: " + ", ".join(wrong))
    sys.exit(bool(wrong))


if __name__ == "__main__":
    main()
