"""Engines that load, are slow, are ended, or belong to another process."""
import os
import shlex
import signal
import tempfile
import threading
import time
import unittest

import sample
from sample import BRANCH, LEAF, ROOT, SNOMED_CT, Service, ecl, get, issue_of, release, value_of

EXPAND, VALIDATE = "/fhir/ValueSet/$expand", "/fhir/ValueSet/$validate-code"


class Engines(unittest.TestCase):
    def service(self, **changes: object) -> Service:
        service = Service(sample.settings(**changes))
        self.addCleanup(service.close)
        return service

    def ready(self, **changes: object) -> Service:
        service = self.service(**changes)
        sample.await_ready(service)
        return service

    def total(self, service: Service, constraint: str) -> int:
        return get(service, EXPAND, url=ecl(constraint), count=0).json["expansion"]["total"]

    def check_throttled(self, answer: sample.Answer) -> None:
        self.assertEqual(issue_of(answer), (503, "throttled"))
        self.assertGreater(int(answer.headers["Retry-After"]), 0)

    def test_a_release_that_loads(self) -> None:
        with tempfile.TemporaryDirectory() as folder:
            program, go = os.path.join(folder, "program"), os.path.join(folder, "go")
            with open(program, "w") as script:
                wait = f"while [ ! -e {shlex.quote(go)} ]; do sleep 0.05; done"
                script.write(f'#!/bin/sh\n{wait}\nexec {shlex.quote(sample.PROGRAM)} "$@"\n')
            os.chmod(program, 0o755)
            service = self.service(program=program)
            for path in ("/health", EXPAND, EXPAND, "/health"):
                self.check_throttled(get(service, path, **({"url": ecl("*")} if path == EXPAND else {})))
            with open(go, "w"):
                sample.await_ready(service)
            self.assertEqual(self.total(service, "*"), release.CONCEPTS)

    def test_names_that_are_being_made(self) -> None:
        import worker

        go, there = threading.Event(), worker.Names.make

        def later(names: object, read_all: object) -> None:
            go.wait()
            there(names, read_all)

        worker.Names.make = later
        try:
            service = self.service()
            sample.await_ready(service, names=False)
            self.check_throttled(get(service, EXPAND, url=ecl("*"), filter="concept"))
            self.assertEqual(self.total(service, "*"), release.CONCEPTS)
        finally:
            go.set()
            worker.Names.make = there
        sample.await_ready(service)
        self.assertEqual(get(service, EXPAND, url=ecl("*"), filter="concept 2999").json["expansion"]["total"], 1)

    def test_a_release_that_is_refused(self) -> None:
        with tempfile.TemporaryDirectory() as empty:
            service = self.service(folders=(empty,))
            end = time.monotonic() + 20
            while get(service, "/health").status == 503 and time.monotonic() < end:
                time.sleep(0.02)
            self.assertEqual(issue_of(get(service, "/health")), (500, "exception"))
            self.assertEqual(issue_of(get(service, EXPAND, url=ecl("*"))), (500, "exception"))

    def test_an_engine_that_is_killed_idle(self) -> None:
        service = self.ready()
        before = sample.engine_of(service)
        os.kill(before, signal.SIGKILL)
        answer = get(service, EXPAND, url=ecl("*"), count=0)
        if answer.status != 200:
            self.check_throttled(answer)
        sample.await_ready(service)
        self.assertEqual(self.total(service, "*"), release.CONCEPTS)
        self.assertNotEqual(sample.engine_of(service), before)

    def test_an_engine_that_is_killed_in_mid_query(self) -> None:
        service = self.ready()
        before = sample.engine_of(service)
        os.kill(before, signal.SIGSTOP)
        threading.Timer(0.3, os.kill, (before, signal.SIGKILL)).start()
        self.check_throttled(get(service, EXPAND, url=ecl("*")))
        self.assertNotIn(sample.engine_of(service), (None, before))
        sample.await_ready(service)
        self.assertEqual(self.total(service, f"<<{BRANCH}"), 1 + len(release.descendants(1)))

    def test_an_engine_that_stands_still(self) -> None:
        service = self.ready(seconds=0.3)
        before = sample.engine_of(service)
        os.kill(before, signal.SIGSTOP)
        start = time.monotonic()
        self.assertEqual(issue_of(get(service, EXPAND, url=ecl("*"))), (422, "too-costly"))
        self.assertLess(time.monotonic() - start, 5)
        self.assertNotIn(sample.engine_of(service), (None, before))
        with self.assertRaises(ProcessLookupError):
            os.kill(before, 0)
        sample.await_ready(service)
        self.assertEqual(self.total(service, f"<{ROOT}"), release.CONCEPTS - 1)

    @unittest.skipIf(sample.IS_BUILT, "the stand-in alone knows a constraint that is slow")
    def test_a_slow_constraint(self) -> None:
        service = self.ready(seconds=0.3)
        for path, more in (
            (EXPAND, {}),
            (VALIDATE, {"code": str(LEAF), "system": SNOMED_CT}),
            (EXPAND, {"filter": "concept"}),
        ):
            self.assertEqual(issue_of(get(service, path, url=ecl(sample.SLOW), **more)), (422, "too-costly"))
            sample.await_ready(service)
            self.assertEqual(self.total(service, f"<<{BRANCH}"), 1 + len(release.descendants(1)))

    def test_requests_that_wait_for_others(self) -> None:
        service = self.ready(seconds=0.3)
        worker, _ = service.start()
        with worker._turn:
            self.check_throttled(get(service, EXPAND, url=ecl("*")))
            self.assertEqual(get(service, "/health").status, 200)
        self.assertEqual(self.total(service, "*"), release.CONCEPTS)

    def test_a_thousand_requests_of_eight_threads(self) -> None:
        service, wrong = sample.shared(), []

        def ask(number: int) -> None:
            for turn in range(number, 1000, 8):
                place = turn * 7 % release.CONCEPTS
                answer = get(
                    service, VALIDATE, url=ecl(f"<<{BRANCH}"), code=release.IDENTIFIERS[place], system=SNOMED_CT
                )
                if value_of(answer, "result") != (place in below):
                    wrong.append((place, answer))

        below = {1, *release.descendants(1)}
        threads = [threading.Thread(target=ask, args=(it,)) for it in range(8)]
        for thread in threads:
            thread.start()
        for thread in threads:
            thread.join()
        self.assertEqual(wrong, [])

    def test_a_fork(self) -> None:
        service = self.ready()
        mine = sample.engine_of(service)
        reader, writer = os.pipe()
        child = os.fork()
        if child == 0:
            sample.await_ready(service, names=False)
            os.write(writer, f"{self.total(service, '*')} {sample.engine_of(service) != mine}".encode())
            service.close()
            os._exit(0)
        os.close(writer)
        with os.fdopen(reader, "rb") as told:
            self.assertEqual(told.read(), f"{release.CONCEPTS} True".encode())
        os.waitpid(child, 0)
        self.assertEqual(self.total(service, f"<<{BRANCH}"), 1 + len(release.descendants(1)))
        self.assertEqual(sample.engine_of(service), mine)


if __name__ == "__main__":
    unittest.main()
