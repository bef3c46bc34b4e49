#!/usr/bin/env python3
"""What the proof of a crate takes, goal by goal: `goal_times.py CRATE [COUNT]`.

The crate is proved from nothing, in one process, over what ./hosecrag has kept of the crates below it. The toolchain
says when it begins with a declaration (ANTT_CACHE_DEBUG); from one to the next is what a goal, an answer or a lemma
takes. The dearest COUNT (40) are listed in seconds, each with its module, and before them what all modules of a kind
take: `Proof` (goals), `Answers`, lemma files, and what is generated (`Lts`: lifetimes, `Tie`: calls).
"""

import collections
import glob
import os
import re
import subprocess
import sys
import tempfile
import time

ROOT = os.path.dirname(os.path.dirname(os.path.abspath(__file__)))
STARTS = re.compile(r"antt: cache: (\S+?): (?:(\S+): (?:not reused|reused)|elaborating)")
ENDS = re.compile(r"antt: cache: (\S+?): ")
PROVE = """
set -eu
list=$1/crates.txt sources=$1/crates libraries=$2
source "$1/make_crate.sh"
make_of "$3" 1 --incremental "$2/kept" -o "$2/made.rlib"
"""


def unpack_libraries(folder):
    """Puts what ./hosecrag has kept of each crate into a folder."""
    kept = glob.glob(os.path.join(ROOT, "out", "*.tar"))
    if not kept:
        sys.exit("no crate is proved: run ./hosecrag first")
    for file in kept:
        subprocess.run(["tar", "-xf", file, "-C", folder], check=True)


def times_of(crate, folder):
    """Of each declaration that is begun: its seconds, its module and its name."""
    times, begun, last = [], None, ""
    command = ["bash", "-c", PROVE, "bash", ROOT, folder, crate]
    environment = dict(os.environ, ANTT_CACHE_DEBUG="1")
    with subprocess.Popen(
        command, env=environment, stdout=subprocess.PIPE, stderr=subprocess.STDOUT, text=True, errors="replace"
    ) as proof:
        for last in proof.stdout:
            now = time.monotonic()
            if not ENDS.search(last):
                continue
            if begun:
                times.append((now - begun[0],) + begun[1:])
            starts = STARTS.search(last)
            begun = (now, starts[1], starts[2] or "") if starts else None
    if proof.returncode != 0:
        sys.exit(last.rstrip() or "the crate is not proved")
    return times


def kind_of(module):
    """The kind of a module, by the last part of its name."""
    last = module.split(".")[-1].split("-")[0]
    return "lemmas" if re.fullmatch(r"[A-Z]\w*Lemmas", last) else last


def main():
    if len(sys.argv) not in (2, 3):
        sys.exit(__doc__.split("\n", maxsplit=1)[0])
    crate, count = sys.argv[1], int(sys.argv[2]) if len(sys.argv) == 3 else 40
    with tempfile.TemporaryDirectory() as folder:
        unpack_libraries(folder)
        times = times_of(crate, folder)
    kinds = collections.Counter()
    for seconds, module, _ in times:
        kinds[kind_of(module)] += seconds
    print(", ".join(f"{kind} {seconds:.1f}" for kind, seconds in kinds.most_common(8)))
    for seconds, module, name in sorted(times, reverse=True)[:count]:
        print(f"{seconds:7.2f}  {re.sub('^Rattle-[^.]*-proofs.', '', module)}  {name}")


if __name__ == "__main__":
    main()
