#!/usr/bin/env python3
"""Tries the service of `service/` over the built program, on a release of full size, and measures it.

    HOSECRAG=PROGRAM bench/service.py FOLDER [FOLDER ..]

It runs the service's own tests first. Then it serves the release by gunicorn, by one worker and by three. It compares
pages, filters, codes and concepts with what the package `hosecrag` answers in one piece. It measures how soon the
service is ready, and how many requests a second there are on one connection, and on eight for each worker. At the end
it asks a hostile constraint with the limit on visits and without one, and tells when the service is back. It needs
gunicorn and `wrk`."""
from __future__ import annotations

import argparse
import bisect
import http.client
import json
import os
import random
import re
import shutil
import socket
import subprocess
import sys
import time
import unicodedata
import urllib.parse
from contextlib import contextmanager
from pathlib import Path
from typing import Any, Iterator, Optional

TOP = Path(__file__).resolve().parents[1]
sys.path.insert(0, str(TOP / "python"))

from hosecrag import Concept, Hosecrag  # noqa: E402

SNOMED_CT = "http://snomed.info/sct"
EXPAND, VALIDATE, LOOK_UP = "/fhir/ValueSet/$expand", "/fhir/ValueSet/$validate-code", "/fhir/CodeSystem/$lookup"

# How many seconds a load lasts.
SECONDS = 5

# A filter whose words more names have is refused.
MOST_FOUND = 50_000

# A text of some 8 KB, made to be slow.
HOSTILE = " OR ".join(f"!!>(*:[{it}..*]*=*)" for it in range(1, 371))


class Client:
    """Asks a service, a connection for each request."""

    def __init__(self, port: int) -> None:
        self.port = port

    def ask(self, path: str, **parameters: object) -> tuple[int, Any]:
        """Returns the status and the JSON of an answer. A service that is throttled is asked again."""
        while True:
            status, answer = self.ask_once(f"{path}?{urllib.parse.urlencode(parameters)}")
            if status != 503:
                return status, answer
            time.sleep(0.05)

    def ask_once(self, target: str, body: Optional[str] = None) -> tuple[int, Any]:
        """Returns the status and the JSON of an answer."""
        status, data = self.bytes_of(target, body)
        return status, json.loads(data) if data else None

    def bytes_of(self, target: str, body: Optional[str] = None) -> tuple[int, bytes]:
        """Returns the status and the body of an answer, or 503 if there is none. A body of a request is posted."""
        connection = http.client.HTTPConnection("127.0.0.1", self.port, timeout=60)
        try:
            headers = {"Content-Type": "application/fhir+json"} if body else {}
            connection.request("POST" if body else "GET", target, body, headers)
            response = connection.getresponse()
            return response.status, response.read()
        except OSError:
            return 503, b""
        finally:
            connection.close()

    def expansion(self, constraint: str, **parameters: object) -> dict[str, Any]:
        status, answer = self.ask(EXPAND, url=value_set(constraint), **parameters)
        assert status == 200, (constraint, parameters, answer)
        found: dict[str, Any] = answer["expansion"]
        return found


def value_set(constraint: str) -> str:
    return f"{SNOMED_CT}?fhir_vs=ecl/{urllib.parse.quote(constraint, safe='')}"


@contextmanager
def served(folders: list[str], workers: int, **environment: str) -> Iterator[tuple[subprocess.Popen[bytes], Client]]:
    """Serves a release by gunicorn; gives its process, and a client."""
    with socket.socket() as found:
        found.bind(("127.0.0.1", 0))
        port = found.getsockname()[1]
    named = {"RELEASE": os.pathsep.join(folders), "PORT": str(port), "WORKERS": str(workers)}
    whole = {**os.environ, **named, **environment}
    words = ["gunicorn", "--config", str(TOP / "service" / "gunicorn.conf.py"), "--log-level", "critical"]
    process = subprocess.Popen(words, env=whole, stderr=subprocess.DEVNULL)
    try:
        yield process, Client(port)
    finally:
        process.terminate()
        process.wait()


def await_service(client: Client, workers: int, names: bool = True) -> float:
    """Returns after how many seconds all workers are ready."""
    start, row = time.monotonic(), 0
    while row < (1 if workers == 1 else 8 * workers):
        status, answer = client.ask_once("/health")
        row = row + 1 if status == 200 and (answer["names"] or not names) else 0
        if not row:
            time.sleep(0.02)
    return time.monotonic() - start


def chosen(engine: Hosecrag) -> tuple[int, list[str]]:
    """Returns the concept below the root that has the most descendants, and constraints that are made of it."""
    root = engine.expand("!!>(*)")[0].identifier
    below = engine.expand(f"<!{root}")
    large = max((it.identifier for it in below), key=lambda it: engine.count(f"<{it}"))
    constraints = ["*", f"<<{large}", f"<!{root}", f"<!{large}", f"^(<<{root})", f"!!<(<<{large})"]
    for concept in engine.expand(f"<<{large}:*=*", first=50):
        for attribute in engine.describe(concept.identifier).attributes:
            constraints += [f"<<{large}:{attribute.type.identifier}=*", f"<<{large}:{{{attribute.type.identifier}=*}}"]
            return large, constraints
    return large, constraints


def compare_pages(client: Client, engine: Hosecrag, constraints: list[str], source: random.Random) -> int:
    """Compares pages at random places, and returns how many."""
    compared = 0
    for constraint in constraints:
        whole = engine.expand(constraint)
        for _ in range(30):
            offset, count = source.randrange(whole.total + 5), source.choice((0, 1, 20, 1000, 10_000))
            found = client.expansion(constraint, offset=offset, count=count)
            assert found["total"] == whole.total, constraint
            assert concepts_of(found) == whole[offset : offset + count], (constraint, offset, count)
            compared += 1
    return compared


def concepts_of(expansion: dict[str, Any]) -> list[Concept]:
    return [Concept(int(it["code"]), it.get("display")) for it in expansion.get("contains", [])]


class Words:
    """The names of a release by their words, to compare filters with."""

    def __init__(self, concepts: list[Concept]) -> None:
        self.concepts = concepts
        self.places: dict[str, list[int]] = {}
        for place, concept in enumerate(concepts):
            for word in words_of(concept.name or ""):
                self.places.setdefault(word, []).append(place)
        self.words = sorted(self.places)

    def found(self, fronts: list[str]) -> list[Concept]:
        """Returns the concepts in whose names each of these begins a word."""
        sets = []
        for front in fronts:
            start, end = bisect.bisect_left(self.words, front), bisect.bisect_left(self.words, front + chr(0x10FFFF))
            sets.append({place for word in self.words[start:end] for place in self.places[word]})
        return [self.concepts[place] for place in sorted(set.intersection(*sets))]


def compare_filters(client: Client, engine: Hosecrag, constraint: str, source: random.Random) -> int:
    """Compares filters with the names that have their words, and returns how many."""
    words, members = Words(engine.expand("*")), {it.identifier for it in engine.expand(constraint, names=False)}
    for _ in range(100):
        some = sorted(words_of(source.choice(words.concepts).name or "x"))
        fronts = [
            word[: source.randrange(2, 9)] for word in source.sample(some, min(len(some), source.randrange(1, 4)))
        ]
        found = words.found(fronts)
        wanted = [concept for concept in found if concept.identifier in members]
        status, answer = client.ask(EXPAND, url=value_set(constraint), filter=" ".join(fronts), count=10_000)
        if len(found) > MOST_FOUND:
            assert (status, answer["issue"][0]["code"]) == (422, "too-costly"), fronts
        else:
            assert answer["expansion"]["total"] == len(wanted), fronts
            assert concepts_of(answer["expansion"]) == wanted[:10_000], fronts
    return 100


def words_of(name: str) -> set[str]:
    """Returns the words of a name in small letters, without accents."""
    plain = "".join(it for it in unicodedata.normalize("NFD", name) if not unicodedata.combining(it))
    return set(re.findall(r"[^\W_]+", plain.lower()))


def compare_codes(client: Client, engine: Hosecrag, constraints: list[str], source: random.Random) -> int:
    """Compares single codes, and what is looked up of them, and returns how many."""
    everything = [it.identifier for it in engine.expand("*", names=False)]
    compared = 0
    for constraint in constraints:
        members = {it.identifier for it in engine.expand(constraint, names=False)}
        for code in source.sample(everything, 30) + source.sample(sorted(members), min(30, len(members))):
            _, answer = client.ask(VALIDATE, url=value_set(constraint), code=code, system=SNOMED_CT)
            assert answer["parameter"][0]["valueBoolean"] == (code in members), (code, constraint)
            _, answer = client.ask(LOOK_UP, code=code, system=SNOMED_CT)
            for name, operator in (("parent", ">!"), ("child", "<!")):
                wanted = [str(it.identifier) for it in engine.expand(f"{operator}{code}")]
                assert property_of(answer, name) == wanted, (code, name)
            compared += 1
    return compared


def property_of(answer: dict[str, Any], name: str) -> list[str]:
    parts = [it["part"] for it in answer["parameter"] if it["name"] == "property"]
    return [part[1]["valueCode"] for part in parts if part[0]["valueCode"] == name]


def targets(large: int, member: Concept) -> dict[str, str]:
    """Returns the requests that are measured. The filter is the beginning of a member's name."""

    def target(path: str, **parameters: object) -> str:
        return f"{path}?{urllib.parse.urlencode({'url': value_set(f'<<{large}'), **parameters})}"

    return {
        "$validate-code": target(VALIDATE, code=member.identifier, system=SNOMED_CT),
        "$expand, 20": target(EXPAND, count=20),
        "$expand, 20, by filter": target(EXPAND, count=20, filter=(member.name or "")[:4]),
        "$expand, 1,000": target(EXPAND, count=1000),
        "$lookup": f"{LOOK_UP}?{urllib.parse.urlencode({'system': SNOMED_CT, 'code': member.identifier})}",
    }


def loaded(client: Client, target: str, connections: int) -> str:
    """Returns how many requests a second there are, and the middle latency and that of the slowest in a hundred."""
    words = ["wrk", "-t1", f"-c{connections}", f"-d{SECONDS}s", "--latency", f"http://127.0.0.1:{client.port}{target}"]
    told = subprocess.run(words, stdout=subprocess.PIPE, text=True, check=True).stdout
    wrong = re.search("Non-2xx.*|Socket errors.*", told)
    found = [re.search(rf"{name} *(\S+)", told) for name in ("Requests/sec:", "50%", "99%")]
    rate, middle, slow = (it[1] if it else "none" for it in found)
    return f"{rate}/s, {middle}, {slow}{', ' + wrong[0] if wrong else ''}"


def memory_of(process: int) -> list[str]:
    """Returns the name and the memory of each process that a process has started, and of those that these have."""
    told = subprocess.run(["ps", "-eo", "pid,ppid,rss,comm"], stdout=subprocess.PIPE, text=True, check=True).stdout
    rows = [line.split(None, 3) for line in told.splitlines()[1:]]
    workers = [row for row in rows if int(row[1]) == process]
    engines = [row for row in rows if row[1] in [worker[0] for worker in workers]]
    return [f"{name} {int(size) // 1024} MiB" for _, _, size, name in workers + engines]


def try_hostile(folders: list[str]) -> None:
    """Asks the hostile text, with the limit on visits and without one."""
    for limit in (10**8, (1 << 64) - 1):
        with served(folders, 1, LIMIT=str(limit)) as (_, client):
            await_service(client, 1, names=False)
            start = time.monotonic()
            body = {"resourceType": "Parameters", "parameter": [{"name": "url", "valueUri": value_set(HOSTILE)}]}
            status, answer = client.ask_once(EXPAND, json.dumps(body))
            taken = time.monotonic() - start
            back = await_service(client, 1, names=False)
            told = answer["issue"][0]["diagnostics"] if status != 200 else ""
            print(f"hostile, limit {limit}: {status} after {taken:.2f} s ({told}), ready again after {back:.2f} s")


def measure(folders: list[str], engine: Hosecrag, workers: int, compared: bool) -> None:
    """Serves by so many workers, compares answers, and measures."""
    source = random.Random(2024)
    large, constraints = chosen(engine)
    member = engine.expand(f"<<{large}", offset=1000, first=1)[0]
    with served(folders, workers) as (process, client):
        print(f"load of the machine: {os.getloadavg()[0]:.1f}, processors: {os.cpu_count()}")
        print(f"{workers} workers: ready after {await_service(client, workers, names=False):.1f} s", end="", flush=True)
        print(f", names {await_service(client, workers):.1f} s later; {', '.join(memory_of(process.pid))}")
        if compared:
            print(f"right: {compare_pages(client, engine, constraints, source)} pages", end="", flush=True)
            print(f", {compare_filters(client, engine, f'<<{large}', source)} filters", end="", flush=True)
            print(f", {compare_codes(client, engine, constraints, source)} codes")
        print(f"<<{large} has {engine.count(f'<<{large}')} concepts")
        for name, target in targets(large, member).items():
            for connections in (1, 8) if workers == 1 else (8 * workers,):
                print(f"  {name}, {connections} connections: {loaded(client, target, connections)}", flush=True)


def main() -> None:
    words = argparse.ArgumentParser(description=__doc__, formatter_class=argparse.RawDescriptionHelpFormatter)
    words.add_argument("folder", nargs="+", help="a folder of the release")
    words.add_argument("--no-tests", action="store_true", help="leave out the service's own tests")
    asked = words.parse_args()
    if not asked.no_tests:
        tests = [sys.executable, "-m", "unittest", "discover", "-s", str(TOP / "service" / "tests")]
        subprocess.run(tests, check=True)
    for program in ("gunicorn", "wrk"):
        if not shutil.which(program):
            sys.exit(f"{program} is not installed")
    with Hosecrag(*asked.folder) as engine:
        for workers in (1, 3):
            measure(asked.folder, engine, workers, workers == 1)
    try_hostile(asked.folder)


if __name__ == "__main__":
    main()
