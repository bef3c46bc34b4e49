#!/usr/bin/env python3
"""Tries the program as a careless user and an attacker would: links, odd names, streams that fail, little memory.

    bench/hostile.py [PROGRAM]

PROGRAM is the built program, crates/hosecrag/out/hosecrag where it is left out. A line is printed for each case,
and at the end `N passed, M failed`. The folders are made below a new temporary folder, which is removed.

To refuse allocations takes gcc, and to do so in calls of the libraries that the program does not make takes rt and the
proved libraries (refusals.sh). Where these are not there, a line says what was left out.
"""
import concurrent.futures
import contextlib
import glob
import itertools
import os
import random
import re
import resource
import shutil
import signal
import socket
import subprocess
import sys
import tempfile
import time

import make_crafted

ROOT = os.path.dirname(os.path.dirname(os.path.abspath(__file__)))
CONCEPTS = "sct2_Concept_Snapshot_INT_20240101.txt"
RELATIONSHIPS = "sct2_Relationship_Snapshot_INT_20240101.txt"
QUERY = b"<100005\n"
ANSWER = b"OK 3\n101009 |Beta (finding)|\n102002 |Gamma (finding)|\n103007 |Delta (finding)|\n"
REPORT = b"FILES 5\nCONCEPTS 10\nISA 10\nATTRIBUTES 9\nMEMBERS 2\nNAMES 10\nPASSED 6\n"
CAUSES = "fields|id-length|id-digit|id-zero|id-part|id-check|time|active|group|value|utf8|uuid"
REFUSALS = re.compile(
    rf"REFUSED (no-concept-file|header \S+|row \S+ \d+ \d+ ({CAUSES})|conflict \S+ \d+|too-many \S+ \d+|cycle \d+)\n"
)
# The lines of the sample's concepts, and queries of each form with the concepts that answer them, or what refuses them.
LINES = {
    "A": b"100005 |Alpha (finding)|\n",
    "B": b"101009 |Beta (finding)|\n",
    "C": b"102002 |Gamma (finding)|\n",
    "D": b"103007 |Delta (finding)|\n",
    "T": b"104001 |Type T (attribute)|\n",
    "U": b"105000 |Type U (attribute)|\n",
    "X": b"106004 |Value X (value)|\n",
    "Y": b"107008 |Value Y (value)|\n",
    "Q": b"108003\n",
    "R": b"138875005 |Root (test)|\n",
}
FORMS = (
    (b"*", "ABCDTUXYQR"),
    (b"<100005", "BCD"),
    (b"109006", ""),
    (b"!!>(<100005)", "BC"),
    (b"!!<(<<100005)", "D"),
    (b">103007", "ABCR"),
    (b">!103007", "BC"),
    (b"<!138875005", "ATUXQ"),
    (b">>!107008", "XY"),
    (b"<<(101009 AND 102002)", ""),
    (b"<<101009 AND <<102002", "D"),
    (b"101009 OR 107008 OR 100005", "ABY"),
    (b"<100005 MINUS 101009", "CD"),
    (b"< 100005 |Alpha| /* c */ and 101009", "B"),
    (b"<^108003", "D"),
    (b"^*", "BD"),
    (b"<100005.104001", "XY"),
    (b"<100005 . 104001 . 105000", ""),
    (b"<100005:104001=106004", "BC"),
    (b"<100005:104001=<<106004,105000=*", "BCD"),
    (b"<100005:105000=#3 OR 104001=106004", "BCD"),
    (b"<100005:{104001=<<106004,105000=*}", "B"),
    (b"<100005:[2..*]{104001=* OR 105000=*}", "CD"),
    (b"<100005:[1..1]{105000=*}", "BC"),
    (b"<100005:{[0..0]105000=*}", "CD"),
    (b"<<100005:[0..0]105000=*", "A"),
    (b"<<100005:[0..0]{105000=*}", "A"),
    (b"<100005:[3..1]105000=*", ""),
    (b"<100005:[0..*]105000=*", "BCD"),
    (b"<<106004:[3..3] R 105000=<100005", "Y"),
    (b"<100005:104001!=106004", "D"),
    (b"<100005:105000!=#3", "C"),
    (b"*:105000>#2", "CD"),
    (b"*:105000<#+2.6", "C"),
    (b"", b"ERR syntax\n"),
    (b"100005 AND 101009 OR 102002", b"ERR syntax\n"),
    (b"100005 XOR 101009", b"ERR token 7\n"),
    (b"1234567890123456789", b"ERR limit 0\n"),
    (b"\xff", b"ERR utf8\n"),
    (b"(" * 65 + b"*" + b")" * 65, b"ERR depth\n"),
    (b"*{{C active=1}}", b"ERR unsupported 1 filter\n"),
)
EXAMPLES = f"{ROOT}/examples"
EDITION = f"{EXAMPLES}/SnomedCT_SampleEdition_20240101"
EXTENSION = f"{EXAMPLES}/SnomedCT_SampleExtension_20240601"
passed, failed = 0, 0


def sample_files():
    """The built-in files, by their names, as their source has them."""
    with open(f"{ROOT}/crates/sample_release/src/lib.rt", encoding="utf-8") as it:
        source = it.read()
    texts = {}
    for name, text in re.findall(r'const (\w+): &\[u8\] =\s*b"(.*?)";', source, re.S):
        text = re.sub(r"\\\n\s*", "", text)
        texts[name] = text.encode().decode("unicode_escape").encode("latin-1")
    return {name: texts[of] for name, of in re.findall(r'name: "([^"]+)",\s*bytes: (\w+)', source)}


def files_open_in_a_run(folder):
    """Returns which files of a folder a run has open once it has answered."""
    with subprocess.Popen([PROGRAM, "query", folder], stdin=subprocess.PIPE, stdout=subprocess.PIPE) as process:
        process.stdin.write(QUERY)
        process.stdin.flush()
        process.stdout.readline()
        at = f"/proc/{process.pid}/fd"
        links = [os.readlink(f"{at}/{it}") for it in os.listdir(at)]
        process.stdin.close()
        process.stdout.read()
    return [it for it in links if it.startswith(folder)]


def put(folder, files):
    os.makedirs(folder, exist_ok=True)
    for name, data in files.items():
        with open(os.path.join(os.fsencode(folder), os.fsencode(name)), "wb") as it:
            it.write(data)


def run(*words, stdin=b"", seconds=60, before=None, **streams):
    """Runs the program, and returns its status, output and errors. A run that does not end has status None."""
    given = {"stdin": subprocess.PIPE, "stdout": subprocess.PIPE, "stderr": subprocess.PIPE, **streams}
    started = subprocess.Popen([PROGRAM, *words], preexec_fn=before, cwd="/", **given)
    try:
        out, err = started.communicate(stdin if given["stdin"] == subprocess.PIPE else None, timeout=seconds)
    except subprocess.TimeoutExpired:
        started.kill()
        out, err = started.communicate()
        return None, out, err
    return started.returncode, out, err


def case(name, got, wanted):
    global passed, failed
    well = got == wanted
    passed, failed = passed + well, failed + (not well)
    print(f"{'ok    ' if well else 'FAILED'} {name}{'' if well else f': {got!r}, not {wanted!r}'}", flush=True)


def refused(text, status=3):
    return (status, b"", f"REFUSED {text}\n".encode())


@contextlib.contextmanager
def folder():
    with tempfile.TemporaryDirectory(prefix="hostile-") as room:
        os.chmod(room, 0o755)
        yield room


def links():
    with folder() as room:
        put(room, FILES)
        for name in ("l1", "l2", "l3"):
            os.symlink(".", f"{room}/{name}")
        case("three links to the folder itself", run("check", room), (0, REPORT, b""))
    with folder() as room:
        put(f"{room}/a/b", FILES)
        os.symlink("..", f"{room}/a/b/up")
        os.symlink("a/b", f"{room}/z")
        case("links up and across", run("check", room), (0, REPORT, b""))
    with folder() as room:
        put(f"{room}/elsewhere", FILES)
        os.mkdir(f"{room}/release")
        os.symlink("../elsewhere", f"{room}/release/here")
        case("a folder behind a link alone", run("check", f"{room}/release"), (0, REPORT, b""))
    with folder() as room:
        put(f"{room}/z", {CONCEPTS: b"bad"})
        os.symlink("z", f"{room}/b")
        os.symlink("z", f"{room}/a")
        case("a folder is told by its first name", run("check", room), refused(f"header a/{CONCEPTS}"))
    status, out, err = run("query", "/sys", seconds=120)
    case("a folder of the kernel's ends", (status in (1, 3), out, err.count(b"\n")), (True, b"", 1))
    with folder() as room:
        put(room, FILES)
        os.symlink("nowhere", f"{room}/notes.txt")
        os.symlink("loop", f"{room}/loop")
        os.symlink(f"{CONCEPTS}/x", f"{room}/through_a_file")
        case("links that lead nowhere", run("check", room), (0, REPORT, b""))
        name = RELATIONSHIPS.replace("INT", "XX")
        os.symlink("nowhere", f"{room}/{name}")
        case("a link that leads nowhere, of a file's name", run("check", room), refused(f"device {name}", 1))


def several():
    later = FILES[CONCEPTS][: FILES[CONCEPTS].index(b"\n") + 1] + b"100005\t20240201\t0\t900000000000207008\t900000000000074008\r\n"
    with folder() as one, folder() as other:
        put(one, FILES)
        put(other, {CONCEPTS: later})
        report = b"FILES 6\nCONCEPTS 9\nISA 7\nATTRIBUTES 9\nMEMBERS 2\nNAMES 9\nPASSED 12\n"
        case("an edition and an extension", run("check", one, other), (0, report, b""))
        case("in the other order", run("check", other, one), (0, report, b""))
        case("one folder twice", run("check", one, one), (0, REPORT.replace(b"FILES 5", b"FILES 10").replace(b"PASSED 6", b"PASSED 53"), b""))
        case("queries over both", run("query", other, one, stdin=b"<100005\n100005\n"), (0, b"OK 0\nOK 0\n", b""))
        put(other, {CONCEPTS: later.replace(b"20240201", b"20240101")})
        case("a conflict in the second folder", run("check", one, other), refused(f"conflict 2/{CONCEPTS} 2"))
        case("a second folder that is none", run("check", one, f"{one}/none"), refused("device", 1))


def names():
    for name, told in ((f"a\n\x1b[31mb", r"a\x0a\x1b[31mb"), ("\x01\x1f\x7f é", r"\x01\x1f\x7f é")):
        with folder() as room:
            put(f"{room}/{name}", {CONCEPTS: b"bad"})
            case(f"a folder named {name!r}", run("check", room), refused(f"header {told}/{CONCEPTS}"))
    with folder() as room:
        put(room, FILES)
        put(room, {b"\xff.txt": b""})
        case("a name that is not UTF-8", run("check", room), refused("device", 1))
    with folder() as room:
        deep = "/".join("abcdefghijklmnop")
        put(f"{room}/{deep}", FILES)
        case("16 levels", run("check", room), (0, REPORT, b""))
        put(f"{room}/{deep}/q", {CONCEPTS.replace("INT", "XX"): b"bad"})
        case("17 levels", run("check", room), (0, REPORT, b""))
    with folder() as room:
        put(room, FILES)
        put(f"{room}/many", {f"{at}.txt": b"" for at in range(100_000)})
        case("100,000 other files", run("check", room), (0, REPORT, b""))
    case("no folder", run("check", "/nowhere/at/all"), refused("device", 1))
    case("an empty word", run("check", ""), refused("device", 1))


def kinds_of_file():
    with folder() as room:
        put(room, {it: FILES[it] for it in FILES if it != CONCEPTS})
        os.mkfifo(f"{room}/{CONCEPTS}")
        other = socket.socket(socket.AF_UNIX)
        os.chdir(room)
        other.bind(CONCEPTS.replace("INT", "XX"))
        os.chdir("/")
        case("a FIFO and a socket for the Concept file", run("check", room), refused("no-concept-file"))
        other.close()
    with folder() as room:
        put(room, {it: FILES[it] for it in FILES if it != CONCEPTS})
        put(f"{room}/{CONCEPTS}", {CONCEPTS: FILES[CONCEPTS]})
        case("a folder with a file's name", run("check", room), (0, REPORT, b""))
    with folder() as room:
        put(room, FILES)
        os.chmod(f"{room}/{CONCEPTS}", 0)
        case("a file that can't be read", run("check", room, before=to_nobody), refused(f"device {CONCEPTS}", 1))
        os.chmod(f"{room}/{CONCEPTS}", 0o644)
        os.mkdir(f"{room}/closed", 0)
        case("a folder that can't be read", run("check", room, before=to_nobody), refused("device", 1))
        os.chmod(f"{room}/closed", 0o755)


def to_nobody():
    if os.geteuid() == 0:
        os.setgroups([])
        os.setgid(65534)
        os.setuid(65534)


def spoiled():
    """Truncations and flipped bits: a release, or a refusal that is named."""
    dice, odd = random.Random(20240101), []
    with folder() as room:
        put(room, FILES)
        for turn in range(2_000):
            name = dice.choice(sorted(FILES))
            data = bytearray(FILES[name])
            if turn % 2:
                del data[dice.randrange(len(data)) :]
            else:
                data[dice.randrange(len(data))] ^= 1 << dice.randrange(8)
            put(room, {name: bytes(data)})
            status, out, err = run("check", room)
            is_load = status == 0 and re.fullmatch(rb"(?:[A-Z]+ \d+\n){7}", out) and err == b""
            is_refusal = status == 3 and out == b"" and REFUSALS.fullmatch(err.decode())
            if not is_load and not is_refusal:
                odd.append((turn, status, out, err))
            put(room, {name: FILES[name]})
    case("2,000 truncations and flipped bits", odd[:3], [])


def streams():
    case("a query", run(stdin=QUERY), (0, ANSWER, b""))
    with open("/dev/full", "wb") as full:
        fault = (1, None, b"FAULT write\n")
        case("a full output", run(stdin=QUERY, stdout=full), fault)
        case("help to a full output", run("--help", stdout=full), fault)
        case("the version to a full output", run("--version", stdout=full), fault)
        with folder() as room:
            put(room, FILES)
            case("a report to a full output", run("check", room, stdout=full), fault)
        case("errors to a full output", run("query", "/nowhere", stderr=full)[0], 1)
    closes = lambda handle: lambda: os.close(handle)
    case("a closed output", run(stdin=QUERY, before=closes(1))[::2], (1, b"FAULT write\n"))
    case("help to a closed output", run("--help", before=closes(1))[::2], (1, b"FAULT write\n"))
    case("a closed input", run(before=closes(0)), (1, b"", b"FAULT read\n"))
    case("closed errors", run("query", "/nowhere", before=closes(2))[0], 1)
    with folder() as room:
        # a file that is opened must not get the place of a closed stream, and be read as queries
        put(room, FILES)
        case("a closed input, over a folder", run("query", room, before=closes(0)), (1, b"", b"FAULT read\n"))
        case("a closed output, over a folder", run("query", room, stdin=QUERY, before=closes(1))[::2], (1, b"FAULT write\n"))
        case("closed errors, over a folder", run("query", room, stdin=QUERY, before=closes(2))[:2], (0, ANSWER))
        case("the files that are open in a run", files_open_in_a_run(room), [])
    case("an empty input", run(), (0, b"", b""))
    case("a byte order mark before the first query", run(stdin=b"\xef\xbb\xbf*\n")[1], b"ERR token 0\n")


def words():
    status, out, err = run("--version")
    case("the version", (status, bool(re.fullmatch(rb"hosecrag \d+\.\d+\.\d+\n", out)), err), (0, True, b""))
    status, out, err = run("--help")
    told = [it for it in (b"hosecrag [COMMAND]", b"hosecrag query", b"hosecrag explain", b"hosecrag describe", b"hosecrag session", b"hosecrag check", b"| hosecrag\n", b"  4  ") if it not in out]
    case("help", (status, told, b"query_tool" in out, err), (0, [], False, b""))
    for given in (["qery"], ["query"], ["check"], ["check", "F", "--lang", "da"], ["--lang", "en"], ["explain"], ["explain", "F", "--lang", "da"], ["describe"], ["session", "F", "--no-names"]):
        status, out, err = run(*given)
        case(f"words that are no command: {given}", (status, out, b"query_tool" in err, b"hosecrag" in err), (2, b"", False, True))
    case("ten folders", run("check", *"ABCDEFGHIJ"), (2, b"", b"at most 9 folders\n"))
    for option in ("--limit", "--first"):
        for number in ([], ["-1"], ["1e6"], ["1" * 21], ["+5"], [""], ["5", option, "6"]):
            status, out, err = run("query", EDITION, option, *number)
            case(f"{option} with {number}", (status, out, option.encode() in err), (2, b"", True))
        for command in ("explain", "describe", "session", "check"):
            status, out, err = run(command, EDITION, option, "5")
            case(f"{command} with {option}", (status, out, option.encode() in err), (2, b"", True))
    status, out, err = run("query", EDITION, "--no-names", "--no-names")
    case("--no-names twice", (status, out, b"--no-names" in err), (2, b"", True))


def limits():
    """The longest lines whose plans visit much: below its bound each is refused by it, and at its bound answered."""
    most = str((1 << 64) - 1)
    for part, between in ((b"*=*", b","), (b"R *=*", b","), (b"{[2..*]*=*}", b","), (b"*=(*:*=*)", b" OR ")):
        line = b"*:" + between.join([part] * (65_533 // (len(part) + len(between)))) + b"\n"
        bound = run("explain", EDITION, stdin=line)[1].split(b"\n")[0].split(b" ")[1]
        below = str(int(bound) - 1)
        answers = run("query", EDITION, "--limit", below, "--first", "0", stdin=line + QUERY)[1].split(b"\n")
        case(f"{part}, below its bound", answers, [b"ERR bound " + bound, b"OK 3", b""])
        for limit in (bound.decode(), most):
            case(f"{part}, under {limit}", run("query", EDITION, "--limit", limit, "--first", "0", stdin=line)[1][:3], b"OK ")
    counts = run("query", EDITION, "--limit", "0", "--first", "0", stdin=QUERY + b"*\n100005 XOR 101009\n")
    case("a limit of 0", counts, (0, b"ERR bound 4\nOK 10\nERR token 7\n", b""))
    case("leading zeros", run("query", EDITION, "--limit", "0004", "--first", "00", stdin=QUERY), (0, b"OK 3\n", b""))


def long_lines():
    def peak(stdin):
        """The peak memory of a run in KiB, and what it wrote."""
        program = (
            "import resource, subprocess, sys\n"
            "ran = subprocess.run([sys.argv[1]], stdout=subprocess.PIPE)\n"
            "sys.stdout.buffer.write(b'%d ' % resource.getrusage(resource.RUSAGE_CHILDREN).ru_maxrss + ran.stdout)\n"
        )
        ran = subprocess.Popen([sys.executable, "-c", program, PROGRAM], stdin=subprocess.PIPE, stdout=subprocess.PIPE)
        for piece in stdin:
            ran.stdin.write(piece)
        memory, _, out = ran.communicate()[0].partition(b" ")
        return int(memory), out

    short, out = peak([QUERY])
    case("a short line", out, ANSWER)
    piece = b"<" * (1 << 20)
    memory, out = peak([*[piece] * 1024, b"\n", QUERY])
    case("behind a line of 1 GiB the next one is answered", out, b"ERR long\n" + ANSWER)
    case("a line of 1 GiB takes less than 1 MiB", memory - short < 1024, True)
    line = b" " * (65_535 - len(QUERY) + 1) + QUERY
    case("a line of 65,535 bytes", run(stdin=line)[1], ANSWER)
    case("a line of 65,536 bytes", run(stdin=b" " + line)[1], b"ERR long\n")
    case("a last line of 70,000 bytes", run(stdin=b" " * 70_000)[1], b"ERR long\n")


def memory():
    """The program under limits on its address space: the answer, or a line that tells of memory."""
    told, odd = set(), []
    with folder() as room:
        put(room, FILES)
        for kib in range(4 << 10, 96 << 10, 256):
            limit = lambda: resource.setrlimit(resource.RLIMIT_AS, (kib << 10, kib << 10))
            try:
                status, out, err = run("query", room, stdin=QUERY, before=limit)
            except OSError:
                continue
            told.add((status, err))
            is_answer = (status, out, err) == (0, ANSWER, b"")
            is_refusal = status == 4 and out == b"" and err in (b"REFUSED memory\n", b"FAULT memory\n")
            # below what the system's own loader needs nothing of the program runs
            is_loader = status in (127, -signal.SIGKILL, -signal.SIGSEGV) and out == b"" and (0, b"") not in told
            if not is_answer and not is_refusal and not is_loader:
                odd.append((kib, status, out, err))
    case("limits on memory in steps of 256 KiB", odd[:3], [])
    case("one of them is enough", (0, b"") in told, True)


def text_of(answer):
    """The text of an answer: its concepts by their letters, or what refuses the query."""
    if isinstance(answer, bytes):
        return answer
    return b"OK %d\n" % len(answer) + b"".join(LINES[it] for it in answer)


def refuse_one(shim, number, words, stdin):
    """Runs the program with one allocation refused. Returns how it ended, and whether it met that."""
    told, tells = os.pipe()
    environment = {**os.environ, "LD_PRELOAD": shim, "REFUSE": str(number), "REFUSE_TOLD": str(tells)}
    ended = run(*words, stdin=stdin, env=environment, pass_fds=(tells,))
    os.close(tells)
    has_met = os.read(told, 1) == b"x"
    os.close(told)
    return ended, has_met


def refuse_each(name, shim, words, stdin, whole):
    """Refuses each allocation of a run in turn, up to the first that the run does not come to. A run that met its refusal
    ends for want of memory, behind whole answers; or, where it can do without, as a run that met none."""
    answers = re.findall(rb"(?m)^(?:OK|ERR|PLAN) .*\n(?:(?!OK |ERR |PLAN ).*\n)*", whole[1])
    fronts = {b"".join(answers[:count]) for count in range(len(answers) + 1)}
    refusals, count, odd = (b"REFUSED memory\n", b"FAULT memory\n"), 0, []
    with concurrent.futures.ThreadPoolExecutor(os.cpu_count()) as pool:
        for first in itertools.count(1, 100):
            runs = list(pool.map(lambda number: refuse_one(shim, number, words, stdin), range(first, first + 100)))
            for number, ((status, out, err), has_met) in enumerate(runs, first):
                count += has_met
                is_refusal = has_met and status == 4 and out in fronts and err in refusals
                if not is_refusal and (status, out, err) != whole:
                    odd.append((number, status, out, err))
            if not runs[-1][1]:
                break
    case(f"{name}: {count} allocations refused in turn", odd[:3], [])


def allocations():
    """The program with each of its allocations refused in turn, over the examples: every form of query, and words."""
    if not shutil.which("gcc"):
        print("left out: allocations refused in turn, since gcc is not here")
        return
    stdin = b"".join(query + b"\n" for query, _ in FORMS)
    whole = (0, b"".join(text_of(answer) for _, answer in FORMS), b"")
    with folder() as room:
        shim = f"{room}/refuse.so"
        subprocess.run(["gcc", "-O2", "-shared", "-fPIC", "-o", shim, f"{ROOT}/bench/refuse.c"], check=True)
        case("every form of query", run("query", EDITION, stdin=stdin), whole)
        refuse_each("query", shim, ["query", EDITION], stdin, whole)
        refuse_each("queries without words", shim, [], QUERY, (0, ANSWER, b""))
        refuse_each("explain", shim, ["explain", EDITION], stdin, run("explain", EDITION, stdin=stdin))
        refuse_each("check", shim, ["check", EDITION], b"", (0, REPORT, b""))
        refuse_each("check of two folders", shim, ["check", EDITION, EXTENSION], b"", run("check", EDITION, EXTENSION))
        for name, words in (
            ("help", ["--help"]),
            ("no command", ["qery"]),
            ("no folder", ["check", "/nowhere"]),
            ("no Concept file", ["check", f"{EDITION}/Snapshot/Refset"]),
        ):
            refuse_each(name, shim, words, b"", run(*words))


def calls():
    """Calls of the libraries with their allocations refused in turn."""
    if not shutil.which("gcc") or not shutil.which("rt") or not glob.glob(f"{ROOT}/out/query_tool-*.tar"):
        print("left out: allocations refused in calls of the libraries, since gcc, rt or the libraries that ./hosecrag proved are not here")
        return
    global passed, failed
    print("the program that makes the calls of the libraries is proved first, which takes some minutes", flush=True)
    with folder() as room:
        ran = subprocess.run([f"{ROOT}/bench/refusals.sh", room], stdin=subprocess.DEVNULL, stdout=subprocess.PIPE)
    lines = ran.stdout.decode().splitlines()
    print("\n".join(lines[:-1]))
    told = re.fullmatch(r"(\d+) passed, (\d+) failed", lines[-1] if lines else "")
    case("the calls of the libraries are made", (ran.returncode, bool(told)), (0, True))
    if told:
        passed, failed = passed + int(told[1]), failed + int(told[2])


def seconds_of(*words):
    """The least time of three runs, each of which must end well."""
    times = []
    for _ in range(3):
        started = time.time()
        status = run(*words, stdin=b"*:*=#1\n", seconds=300)[0]
        times.append(time.time() - started if status == 0 else float("inf"))
    return min(times)


def crafted():
    """Releases that are meant to burn time: dense hierarchies, and rows that a hash would put in one place."""
    with folder() as room:
        for kind, seconds in (("layers", 4), ("chain", 20)):
            make_crafted.make(kind, f"{room}/{kind}")
            case(f"{kind}: a load with indexes ends within {seconds} s", seconds_of("query", f"{room}/{kind}") < seconds, True)
        for kind in ("members", "decimals"):
            make_crafted.make(kind, f"{room}/{kind}")
            make_crafted.make(kind, f"{room}/ordinary-{kind}", ordinary=True)
            for word in ("check", "query"):
                taken, ordinary = seconds_of(word, f"{room}/{kind}"), seconds_of(word, f"{room}/ordinary-{kind}")
                case(f"{kind}: {word} takes 1.5 times what ordinary ones take at the most", taken <= 1.5 * ordinary + 0.02, True)


if __name__ == "__main__":
    given = sys.argv[1] if len(sys.argv) > 1 else f"{ROOT}/crates/hosecrag/out/hosecrag"
    FILES = sample_files()
    started = time.time()
    with tempfile.TemporaryDirectory(prefix="hostile-program-") as at:
        # a copy that another user can start
        os.chmod(at, 0o755)
        PROGRAM = shutil.copy(given, f"{at}/hosecrag")
        os.chmod(PROGRAM, 0o755)
        for part in (words, limits, streams, links, several, names, kinds_of_file, long_lines, memory, allocations, spoiled, crafted, calls):
            part()
    print(f"{passed} passed, {failed} failed")
    sys.exit(1 if failed else 0)
