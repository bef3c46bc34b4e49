#!/usr/bin/env python3
"""Runs what stands in examples/, the Python package and the script ./hosecrag, and compares what is answered.

    bench/examples.py [PROGRAM]

PROGRAM is the built program, crates/hosecrag/out/hosecrag where it is left out. A line is printed for each case, and at
the end `N passed, M failed`. A copy of ./hosecrag in a temporary folder runs PROGRAM, so that nothing is built.
"""
import decimal
import filecmp
import os
import pty
import re
import select
import shutil
import signal
import subprocess
import sys
import tempfile

ROOT = os.path.dirname(os.path.dirname(os.path.abspath(__file__)))
PROGRAM = os.path.abspath(sys.argv[1] if len(sys.argv) > 1 else f"{ROOT}/crates/hosecrag/out/hosecrag")
EXAMPLES = f"{ROOT}/examples"
EDITION = f"{EXAMPLES}/SnomedCT_SampleEdition_20240101"
EXTENSION = f"{EXAMPLES}/SnomedCT_SampleExtension_20240601"
os.environ["HOSECRAG"] = PROGRAM
sys.path.insert(0, f"{ROOT}/python")
sys.dont_write_bytecode = True
import hosecrag  # noqa: E402

passed, failed = 0, 0


def case(name, found, wanted):
    global passed, failed
    well = found == wanted
    passed, failed = passed + well, failed + (not well)
    print(f"{'ok' if well else 'FAILED'}  {name}" + ("" if well else f"\n    wanted {wanted!r}\n    found  {found!r}"))


def run(*words, stdin=b""):
    ended = subprocess.run(words, input=stdin, stdout=subprocess.PIPE, stderr=subprocess.PIPE, timeout=60)
    return ended.returncode, ended.stdout.decode()


def refused(kind, call):
    """Returns the exception of a kind that a call raises, or None."""
    try:
        call()
    except kind as error:
        return error
    return None


def read(name):
    with open(f"{EXAMPLES}/{name}", "rb") as it:
        return it.read()


def same_files(one, other):
    """Returns the paths of files that are in one folder alone, or that differ."""
    found = []
    for at, _, names in os.walk(one):
        for name in names:
            path = os.path.relpath(f"{at}/{name}", one)
            if not os.path.isfile(f"{other}/{path}") or not filecmp.cmp(f"{one}/{path}", f"{other}/{path}", shallow=False):
                found.append(path)
    return sorted(found)


def queries():
    case(
        "queries over both packages",
        run(PROGRAM, "query", EDITION, EXTENSION, stdin=read("queries.txt")),
        (0, read("answers.txt").decode()),
    )
    sample = run(PROGRAM, stdin=b"*\n<<100005\n^108003\n")
    case("the edition is the release that is built in", run(PROGRAM, "query", EDITION, stdin=b"*\n<<100005\n^108003\n"), sample)
    stored = f"{ROOT}/crates/over_folders"
    for package in (EDITION, EXTENSION):
        case(f"the gate's copy of {os.path.basename(package)}", same_files(package, f"{stored}/data/{os.path.basename(package)}"), [])
    plans = f"{ROOT}/crates/plans_over_folders/data/{os.path.basename(EDITION)}"
    case("the gate's other copy of the edition", same_files(EDITION, plans), [])
    for name, copy in (("queries.txt", "stdin"), ("answers.txt", "stdout")):
        with open(f"{stored}/{copy}", "rb") as it:
            case(f"the gate's copy of {name}", it.read(), read(name))


def refusal():
    stored = f"{ROOT}/crates/refused_folders"
    texts = {}
    for name in ("args", "stdin", "stdout", "stderr", "status"):
        with open(f"{stored}/{name}", "rb") as it:
            texts[name] = it.read()
    words = texts["args"].decode().split()
    ended = subprocess.run([PROGRAM, *words], input=texts["stdin"], cwd=f"{stored}/data", capture_output=True, timeout=60)
    case("packages with a conflict", (ended.returncode, ended.stdout, ended.stderr), (int(texts["status"]), texts["stdout"], texts["stderr"]))


def scripts():
    status, rows = run(f"{EXAMPLES}/refset.sh", "<100005:105000=*", "108003", "900000000000207008", EDITION)
    cells = [line.split("\t") for line in rows.split("\r\n")]
    case("refset.sh ends well", status, 0)
    case("refset.sh names the concepts", [row[5] for row in cells[1:-1]], ["101009", "102002", "103007"])
    case("refset.sh gives each row six columns and an identifier of its own", ({len(row) for row in cells[:-1]}, len({row[0] for row in cells})), ({6}, 5))
    random_uuid = re.compile("[0-9a-f]{8}-[0-9a-f]{4}-4[0-9a-f]{3}-[89ab][0-9a-f]{3}-[0-9a-f]{12}")
    case("refset.sh makes random UUIDs", [bool(random_uuid.fullmatch(row[0])) for row in cells[1:-1]], [True] * 3)
    case(
        "compare.sh",
        run(f"{EXAMPLES}/compare.sh", "<100005", EDITION, "--", EDITION, EXTENSION),
        (0, "- 102002 |Gamma (finding)|\n+ 21000999103 |Epsilon (finding)|\n"),
    )
    case("compare.sh of one release", run(f"{EXAMPLES}/compare.sh", "<100005", EDITION, "--", EDITION), (0, ""))
    rule = "(<100005:104001=*) MINUS (<100005:104001=<<106004)"
    case("quality.sh, a rule that is kept", run(f"{EXAMPLES}/quality.sh", rule, EDITION), (0, ""))
    case(
        "quality.sh, a rule that is broken",
        run(f"{EXAMPLES}/quality.sh", "<100005 MINUS (*:104001=106004)", EDITION),
        (1, "103007 |Delta (finding)|\n"),
    )
    case("quality.sh, no query", run(f"{EXAMPLES}/quality.sh", "100005 AND", EDITION)[0], 2)
    case("quality.sh, no release", run(f"{EXAMPLES}/quality.sh", "*", "/nowhere")[0], 2)


def rules():
    def checked(text, *folders):
        return run(f"{EXAMPLES}/quality.sh", "--rules", "/dev/stdin", *folders, stdin=text.encode())

    kept = "(<100005:104001=*) MINUS (<100005:104001=<<106004)"
    broken = "/* no Delta */ <100005 MINUS (*:104001=106004)"
    told = f"/dev/stdin:4: 1 {broken}\n  103007 |Delta (finding)|\n"
    case("quality.sh, rules that are kept", checked(f"{kept}\r\n\n{kept}", EDITION), (0, ""))
    case("quality.sh, a rule of a file that is broken", checked(f"# rules\n{kept}\n \n{broken}\n{kept}\n", EDITION), (1, told))
    case("quality.sh, a text among the rules that is no query", checked(f"{kept}\n100005 AND\n{kept}\n{broken}\n", EDITION), (2, told))
    status, text = checked("*\n101009\n", EDITION)
    lines = text.splitlines()
    case("quality.sh prints ten concepts of a rule", (status, lines[0], len(lines), lines[11:]), (1, "/dev/stdin:1: 10 *", 13, ["/dev/stdin:2: 1 101009", "  101009 |Beta (finding)|"]))
    with tempfile.TemporaryDirectory() as more:
        with open(f"{more}/sct2_Concept_Snapshot_more.txt", "w", newline="") as it:
            it.write("id\teffectiveTime\tactive\tmoduleId\tdefinitionStatusId\r\n404684003\t20240101\t1\t900000000000207008\t900000000000074008\r\n")
        status, text = checked("*\n101009\n", EDITION, more)
    lines = text.splitlines()
    case("quality.sh prints no more than ten", (status, lines[0], lines[11:]), (1, "/dev/stdin:1: 11 *", ["/dev/stdin:2: 1 101009", "  101009 |Beta (finding)|"]))
    case("quality.sh, a file without a rule", checked("\n# none\n", EDITION)[0], 2)
    case("quality.sh, rules and no release", checked(kept, "/nowhere")[0], 2)
    case("quality.sh, no file of rules", run(f"{EXAMPLES}/quality.sh", "--rules", "/nowhere", EDITION)[0], 2)


def at_terminal(words, typed):
    """Runs words at a terminal, and returns the status that a shell tells, and what stands on the terminal in the end. Of
    `typed` each pair is a text that is waited for and the text that is typed then."""
    child, terminal = pty.fork()
    if child == 0:
        os.execv(words[0], words)
    shown = b""
    for awaited, text in [*typed, (None, b"")]:
        while awaited is None or awaited not in shown:
            if not select.select([terminal], [], [], 60)[0]:
                os.kill(child, signal.SIGKILL)
            try:
                shown += os.read(terminal, 65536)
            except OSError:  # Linux answers so once the child has ended
                break
        else:
            os.write(terminal, text)
    os.close(terminal)
    ended = os.waitpid(child, 0)[1]
    return 128 + os.WTERMSIG(ended) if os.WIFSIGNALED(ended) else os.WEXITSTATUS(ended), shown.decode().replace("\r\n", "\n")


def script():
    with tempfile.TemporaryDirectory() as top:
        os.makedirs(f"{top}/crates/hosecrag/out")
        for name in ("hosecrag", "crates.txt"):
            shutil.copyfile(f"{ROOT}/{name}", f"{top}/{name}")
        os.chmod(f"{top}/hosecrag", 0o755)
        # the program is the newest file, so the script takes it as it is
        shutil.copyfile(PROGRAM, f"{top}/crates/hosecrag/out/hosecrag")
        os.chmod(f"{top}/crates/hosecrag/out/hosecrag", 0o755)
        missing_folders(f"{top}/hosecrag")
        terminals(f"{top}/hosecrag")


def missing_folders(started):
    def told(*words):
        ended = subprocess.run([started, *words], stdin=subprocess.DEVNULL, capture_output=True, cwd="/", timeout=60)
        return ended.returncode, ended.stdout.decode(), ended.stderr.decode()

    def named(*folders):
        return 1, "", "".join(f"hosecrag: cannot find the folder {it}\n" for it in folders) + "REFUSED device\n"

    for command in ("check", "query", "explain", "describe", "session"):
        case(f"./hosecrag {command} names a folder that does not exist", told(command, "/nowhere"), named("'/nowhere'"))
    case("./hosecrag names each such folder", told("query", EDITION, "/no where", "nor/here"), named("'/no where'", "'nor/here'"))
    case("./hosecrag names it on one line", told("check", "/no\nwhere"), named("$'/no\\nwhere'"))
    case("./hosecrag takes words after -- for folders", told("check", "--", "--limit"), named("'--limit'"))
    for words in (["--lang", "xx"], ["--lang=xx"], ["--limit", "16"], ["--limit=16"], ["--first", "2"], ["--first=2"], ["--no-names"]):
        case(f"./hosecrag takes none of {' '.join(words)} for a folder", told("query", *words, EDITION), (0, "", ""))
        case(f"./hosecrag finds the folder before {' '.join(words)}", told("query", "/nowhere", *words), named("'/nowhere'"))
    case("./hosecrag says nothing beside help", told("query", "/nowhere", "--help")[2], "")
    case("./hosecrag says nothing of a command that is none", "cannot find" in told("nowhere", "/nowhere")[2], False)


def described():
    """Of the edition with its extension: Gamma, which the extension retires, Delta, which has one parent then, and
    Epsilon, which the extension brings; an inactive concept of the edition; an unknown one."""
    def told(text, *words):
        ended = subprocess.run([PROGRAM, *words], input=text.encode(), capture_output=True, timeout=60)
        return ended.returncode, ended.stdout.decode(), ended.stderr.decode()

    epsilon = (
        "CONCEPT 21000999103 |Epsilon (finding)|\nPARENTS 1\n101009 |Beta (finding)|\nCHILDREN 0\nATTRIBUTES 2\n"
        "1 104001 |Type T (attribute)| 106004 |Value X (value)|\n1 105000 |Type U (attribute)| 107008 |Value Y (value)|\n"
        "MEMBER-OF 1\n108003\n"
    )
    delta = (
        "CONCEPT 103007 |Delta (finding)|\nPARENTS 1\n101009 |Beta (finding)|\nCHILDREN 0\nATTRIBUTES 4\n"
        "0 104001 |Type T (attribute)| 107008 |Value Y (value)|\n0 105000 |Type U (attribute)| 107008 |Value Y (value)|\n"
        "1 105000 |Type U (attribute)| #3\n2 105000 |Type U (attribute)| 107008 |Value Y (value)|\nMEMBER-OF 1\n108003\n"
    )
    lines = "21000999103\n103007 |Delta (finding)|\n102002\n109006\n404684003\n21000999104\n"
    text = f"{epsilon}{delta}INACTIVE 102002\nINACTIVE 109006\nUNKNOWN 404684003\nERR id check\n"
    case("describe, an edition with its extension", told(lines, "describe", EDITION, EXTENSION), (0, text, ""))
    danish = epsilon.replace("Epsilon (finding)", "Epsilon (fund)")
    case("describe, in another language", told("21000999103\n", "describe", EDITION, EXTENSION, "--lang", "da"), (0, danish, ""))
    lines = "ids 0 2 - ^108003\nlist 2 - 10 ^108003\ndescribe 102002\nexplain 102002\nlist 0 1 - 102002 XOR 1\nlist 0 1 -\n"
    text = "OK 3\n101009\n103007\nOK 3\n21000999103 |Epsilon (finding)|\nINACTIVE 102002\nPLAN 0\none 102002 0\nERR token 7\nERR request\n"
    case("session", told(lines, "session", EDITION, EXTENSION), (0, text, ""))


def terminals(started):
    greeting = "hosecrag: loading the release\nhosecrag: type one query a line; Ctrl-D ends\n"
    answered = f"{greeting}103007\nOK 1\n103007 |Delta (finding)|\n"
    words = [started, "query", EDITION]
    ask = (b"Ctrl-D ends\r\n", b"103007\n")
    case("./hosecrag query at a terminal, ended by Ctrl-D", at_terminal(words, [ask, (b"(finding)|\r\n", b"\x04")]), (0, answered))
    status, shown = at_terminal(words, [ask, (b"(finding)|\r\n", b"\x03")])
    case("./hosecrag query at a terminal, ended by Ctrl-C", (status, shown.replace("^C", "")), (130, answered))
    case("./hosecrag check at a terminal", "loading" in at_terminal([started, "check", EDITION], [])[1], False)
    piped = subprocess.run(words, input=b"103007\n", capture_output=True, timeout=60)
    case("./hosecrag query in a pipe", (piped.returncode, piped.stdout, piped.stderr), (0, b"OK 1\n103007 |Delta (finding)|\n", b""))


def package():
    beta, delta, epsilon = (101009, "Beta (finding)"), (103007, "Delta (finding)"), (21000999103, "Epsilon (finding)")
    with hosecrag.Hosecrag(EDITION, EXTENSION) as engine:
        case("expand", engine.expand("^108003"), [beta, delta, epsilon])
        page = engine.expand("^108003", offset=1, first=1, names=False)
        case("expand, a page without names", (page.total, page), (3, [(103007, None)]))
        case("expand, a concept without a name", engine.expand("108003"), [(108003, None)])
        case("count, over two lines", engine.count("<<100005\nMINUS 102002"), 4)
        case("is_member", [engine.is_member(it, "<100005:{104001=<<106004,105000=*}") for it in (101009, 103007)], [True, False])
        case("is_member, numbers that are no identifiers", [engine.is_member(it, "*") for it in (5, 101008, 404684003)], [False] * 3)
        error = refused(hosecrag.Refused, lambda: engine.count("100005 XOR 101009"))
        case("a refusal", (error.cause, error.offset, error.form), ("token", 7, None))
        error = refused(hosecrag.Refused, lambda: engine.expand("*{{C active=1}}"))
        case("a form that is not answered", (error.cause, error.offset, error.form), ("unsupported", 1, "filter"))
        case("brackets make no query of a text", refused(hosecrag.Refused, lambda: engine.is_member(100005, "*) OR (*")).cause, "syntax")
        case("it goes on behind a refusal", engine.count("*"), 10)
        case("describe, a retired concept", engine.describe(102002).state, "inactive")
    described_by_package()
    with hosecrag.Hosecrag(EDITION, lang="da") as engine:
        case("another language", engine.expand("103007"), [(103007, "Delta (fund)")])
    case("no folders", str(refused(ValueError, lambda: hosecrag.Hosecrag())), "a release has a folder at least")
    case("no release", str(refused(hosecrag.ReleaseRefused, lambda: hosecrag.Hosecrag(f"{EDITION}/Snapshot/Refset"))), "REFUSED no-concept-file")
    case("no folder", refused(hosecrag.Fault, lambda: hosecrag.Hosecrag("/nowhere")).status, 1)
    tests = subprocess.run([sys.executable, "-m", "unittest", "discover", "-s", f"{ROOT}/python/tests"], capture_output=True)
    case("the tests of the package, over the program", (tests.returncode, tests.stderr.decode()[-4:]), (0, "\nOK\n"))


def described_by_package():
    type_t, type_u = (104001, "Type T (attribute)"), (105000, "Type U (attribute)")
    with hosecrag.Hosecrag(EDITION) as engine:
        beta = engine.describe("101009 |Beta|")
        case("describe, the concept", (beta.state, beta.concept), ("active", (101009, "Beta (finding)")))
        case("describe, parents and children", (beta.parents, beta.children), ([(100005, "Alpha (finding)")], [(103007, "Delta (finding)")]))
        case("describe, attributes", beta.attributes, [(1, type_t, (106004, "Value X (value)")), (1, type_u, (107008, "Value Y (value)"))])
        case("describe, reference sets", beta.reference_sets, [(108003, None)])
        case("describe, a number", engine.describe(102002).attributes[0].value, decimal.Decimal("2.5"))
        case("describe, a mistyped identifier", refused(hosecrag.NoIdentifier, lambda: engine.describe(101008)).cause, "check")
        plan = engine.explain("<100005:104001=106004")
        nodes = [(0, "and", 10), (1, "descendants", 4), (2, "one 100005", 0), (1, "pairs out 1..* within by value", 3)]
        case("explain", (plan.bound, plan.nodes), (17, [*nodes, (2, "one 104001", 0), (2, "one 106004", 0)]))
        error = refused(hosecrag.TooCostly, lambda: engine.count("<100005:104001=106004", limit=16))
        case("a limit", (error.bound, engine.count("<100005:104001=106004", limit=17)), (17, 2))


queries()
refusal()
scripts()
rules()
script()
described()
package()
print(f"{passed} passed, {failed} failed")
sys.exit(1 if failed else 0)
