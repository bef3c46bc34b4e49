"""What the tests share: a small release, a service over it, and requests to it. The release is the tree of
`python/tests/release.py`, and a few rows more. The tests run over the built program that the variable HOSECRAG
names. If there is none, they run over a stand-in."""
from __future__ import annotations

import atexit
import io
import json
import logging
import os
import shlex
import sys
import tempfile
import time
import urllib.parse
from typing import Any, NamedTuple, Optional, Union

HERE = os.path.dirname(os.path.abspath(__file__))
TOP = os.path.dirname(os.path.dirname(HERE))
sys.path[:0] = [os.path.dirname(HERE), f"{TOP}/python"]
sys.path.append(f"{TOP}/python/tests")

import release  # noqa: E402
from app import Service  # noqa: E402
from settings import SNOMED_CT, Settings  # noqa: E402

# several tests end engines
logging.disable()

IS_BUILT = bool(os.environ.get("HOSECRAG"))

EDITION = f"{SNOMED_CT}/900000000000207008"
VERSION = f"{EDITION}/version/20240101"

ROOT, BRANCH, LEAF = release.IDENTIFIERS[0], release.IDENTIFIERS[1], release.IDENTIFIERS[2999]

# A concept of the release that is inactive.
INACTIVE = release.with_check_digit("80000000")

# The concept that has attributes and is in a reference set: its place, and those of types, of values and of the set.
OWNER, TYPE, OTHER_TYPE, VALUE, SET = 5, 6, 7, 8, 9

# A constraint that the stand-in answers after a minute.
SLOW = "<<100005 |slow|"

_folder = tempfile.TemporaryDirectory()
atexit.register(_folder.cleanup)
FOLDERS = (os.path.join(_folder.name, "tree"), os.path.join(_folder.name, "more"))


def _write_more(folder: str) -> None:
    """Writes an inactive concept, and attributes and a reference set of concepts of the tree."""
    front, inferred = f"20240101\t1\t{release.MODULE}", f"{release.INFERRED}\t{release.MODIFIER}"
    owner, kind, other, value, group = (release.IDENTIFIERS[it] for it in (OWNER, TYPE, OTHER_TYPE, VALUE, SET))
    row = [release.with_check_digit(f"{90000 + it}02") for it in range(4)]
    files = {
        "sct2_Concept_Snapshot_EXT": (
            release.HEADER["Concept"],
            f"{INACTIVE}\t20240101\t0\t{release.MODULE}\t{release.PRIMITIVE}",
        ),
        "sct2_Relationship_Snapshot_EXT": (
            release.HEADER["Relationship"],
            f"{row[0]}\t{front}\t{owner}\t{value}\t1\t{kind}\t{inferred}",
            f"{row[1]}\t{front}\t{owner}\t{value}\t0\t{other}\t{inferred}",
        ),
        "sct2_RelationshipConcreteValues_Snapshot_EXT": (
            release.HEADER["Relationship"].replace("destinationId", "value"),
            f"{row[2]}\t{front}\t{owner}\t#2.5\t1\t{other}\t{inferred}",
            f"{row[3]}\t{front}\t{owner}\t#0.100000000000000001\t2\t{kind}\t{inferred}",
        ),
        "der2_Refset_SimpleSnapshot_EXT": (
            "id\teffectiveTime\tactive\tmoduleId\trefsetId\treferencedComponentId",
            f"80000000-0000-4000-8000-000000000001\t{front}\t{group}\t{owner}",
        ),
    }
    for name, lines in files.items():
        with open(os.path.join(folder, f"{name}_20240101.txt"), "w", encoding="utf-8", newline="") as file:
            file.write("".join(f"{line}\r\n" for line in lines))


for _path in FOLDERS:
    os.mkdir(_path)
release.write(FOLDERS[0])
_write_more(FOLDERS[1])


def _stand_in() -> str:
    """Writes a program that runs the stand-in by this Python."""
    path = os.path.join(_folder.name, "stand_in")
    with open(path, "w") as script:
        words = f"{shlex.quote(sys.executable)} -S -E {shlex.quote(HERE)}/larger_stand_in.py"
        script.write(f'#!/bin/sh\nexec {words} "$@"\n')
    os.chmod(path, 0o755)
    return path


PROGRAM = os.environ.get("HOSECRAG") or _stand_in()


def settings(**changes: Any) -> Settings:
    options: dict[str, Any] = {"folders": FOLDERS, "program": PROGRAM, "version": VERSION, "seconds": 10.0, **changes}
    return Settings(**options)


class Answer(NamedTuple):
    """A response: its status, its headers, and its JSON, or None for another body."""

    status: int
    headers: dict[str, str]
    json: Any
    body: bytes


def call(service: Service, environ: dict[str, Any]) -> Answer:
    """Calls a service as a server of WSGI does."""
    started: list[Any] = []
    front = {"REQUEST_METHOD": "GET", "QUERY_STRING": "", "wsgi.input": io.BytesIO(), "wsgi.errors": sys.stderr}
    whole = {**front, **environ}
    body = b"".join(service(whole, lambda status, headers: started.append((status, headers))))
    ((status, headers),) = started
    found = dict(headers)
    is_json = body and "json" in found["Content-Type"]
    return Answer(int(status.split()[0]), found, json.loads(body) if is_json else None, body)


def get(service: Service, path: str, **parameters: Union[str, int]) -> Answer:
    return call(service, {"PATH_INFO": path, "QUERY_STRING": urllib.parse.urlencode(parameters)})


def post(service: Service, path: str, body: bytes, **environ: str) -> Answer:
    kind = {"CONTENT_TYPE": "application/fhir+json", "CONTENT_LENGTH": str(len(body)), **environ}
    return call(service, {"PATH_INFO": path, "REQUEST_METHOD": "POST", "wsgi.input": io.BytesIO(body), **kind})


def body_of(**parameters: tuple[str, Any]) -> bytes:
    """Returns a Parameters resource: of each parameter the type and the value."""
    listed = [{"name": name, kind: value} for name, (kind, value) in parameters.items()]
    return json.dumps({"resourceType": "Parameters", "parameter": listed}).encode()


def ecl(constraint: str) -> str:
    """Returns the URL of the value set of a constraint."""
    return f"{SNOMED_CT}?fhir_vs=ecl/{urllib.parse.quote(constraint, safe='')}"


def codes_of(answer: Answer) -> list[int]:
    """Returns the identifiers of a page of an expansion."""
    return [int(it["code"]) for it in answer.json["expansion"].get("contains", [])]


def issue_of(answer: Answer) -> tuple[int, str]:
    """Returns the status of an error and the code of its issue."""
    (issue,) = answer.json["issue"]
    assert answer.json["resourceType"] == "OperationOutcome" and issue["severity"] == "error"
    return answer.status, issue["code"]


def value_of(answer: Answer, name: str) -> Any:
    """Returns the value of a parameter of a Parameters resource."""
    for parameter in answer.json["parameter"]:
        if parameter["name"] == name:
            return next(value for key, value in parameter.items() if key.startswith("value"))
    return None


def await_ready(service: Service, names: bool = True, seconds: float = 60.0) -> None:
    """Waits until a service has loaded the release, and made the names."""
    end = time.monotonic() + seconds
    while time.monotonic() < end:
        answer = get(service, "/health")
        if answer.status == 200 and (answer.json["names"] or not names):
            return
        time.sleep(0.02)
    raise AssertionError(f"the service is not ready after {seconds} s")


_services: list[Service] = []


def shared() -> Service:
    """Returns a service that all tests may use that leave it as it is."""
    if not _services:
        _services.append(Service(settings()))
        atexit.register(_services[0].close)
        await_ready(_services[0])
    return _services[0]


def engine_of(service: Service) -> Optional[int]:
    """Returns the number of the process of the engine."""
    return service.start()[0]._engine.pid
