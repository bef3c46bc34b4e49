"""The service behind a server: many clients, slow ones, and workers that are killed."""
import json
import os
import signal
import socket
import tempfile
import threading
import time
import unittest
import urllib.error
import urllib.parse
import urllib.request

import sample
import servers
from sample import BRANCH, ROOT, ecl, release

EXPAND = "/fhir/ValueSet/$expand"

needs_gunicorn = unittest.skipUnless(servers.GUNICORN, "gunicorn is not installed")


def path_of(constraint: str, **parameters: int) -> str:
    return f"{EXPAND}?{urllib.parse.urlencode({'url': ecl(constraint), **parameters})}"


def wrong_answers(port: int, requests: int, clients: int) -> list:
    """Asks a server from so many clients at once; returns the answers that are wrong."""
    wrong, totals = [], {BRANCH: 1 + len(release.descendants(1)), ROOT: release.CONCEPTS}
    for place in (2, 40, 700, 2999):
        totals[release.IDENTIFIERS[place]] = 1 + len(release.descendants(place))

    def ask(number: int) -> None:
        for turn in range(number, requests, clients):
            concept = list(totals)[turn % len(totals)]
            wanted = totals[concept], min(turn % 5, totals[concept])
            found = page_of(port, path_of(f"<<{concept}", count=turn % 5))
            if found != wanted:
                wrong.append((concept, found))

    threads = [threading.Thread(target=ask, args=(it,)) for it in range(clients)]
    for thread in threads:
        thread.start()
    for thread in threads:
        thread.join()
    return wrong


def page_of(port: int, path: str) -> object:
    """Returns the total of an expansion, and how many concepts its page has; or the error that came in its place. A
    server that is throttled is asked again."""
    end = time.monotonic() + 60
    while time.monotonic() < end:
        try:
            with urllib.request.urlopen(f"http://127.0.0.1:{port}{path}", timeout=60) as response:
                found = json.load(response)["expansion"]
            return found["total"], len(found.get("contains", []))
        except urllib.error.HTTPError as error:
            with error:
                if error.code != 503:
                    return error.code
            time.sleep(0.05)
        except (OSError, ValueError, KeyError) as error:
            return error
    return "throttled"


def first_line(port: int, sent: bytes, seconds: float) -> bytes:
    """Sends some bytes to a server; returns the first line that comes back before it closes the connection."""
    with socket.create_connection(("127.0.0.1", port), timeout=seconds) as connection:
        connection.sendall(sent)
        try:
            return connection.recv(65536).split(b"\r\n")[0]
        except OSError:
            return b"late"


class ServersOfThisMachine(unittest.TestCase):
    def test_eight_clients(self) -> None:
        with servers.wsgiref(sample.shared()) as port:
            self.assertEqual(wrong_answers(port, 400, 8), [])

    def test_slow_clients(self) -> None:
        with servers.quick_wsgiref(sample.shared(), 0.5) as port:
            halves = [
                b"GET / HT",
                b"GET / HTTP/1.1\r\nHost: x\r\n",
                b"POST /health HTTP/1.1\r\nContent-Length: 9\r\n" b"Content-Type: application/json\r\n\r\n{",
            ]
            slow = [socket.create_connection(("127.0.0.1", port), timeout=10) for _ in halves]
            try:
                for connection, half in zip(slow, halves):
                    connection.sendall(half)
                start = time.monotonic()
                self.assertEqual(servers.get(port, path_of(f"<<{BRANCH}")), 200)
                self.assertLess(time.monotonic() - start, 0.5)
                for connection in slow:
                    while connection.recv(4096):
                        pass
            finally:
                for connection in slow:
                    connection.close()


@needs_gunicorn
class Gunicorn(unittest.TestCase):
    def test_many_clients_and_a_killed_worker(self) -> None:
        with servers.gunicorn(2) as (process, port):
            self.assertEqual(wrong_answers(port, 400, 8), [])
            workers = servers.children_of(process.pid)
            engines = [engine for worker in workers for engine in servers.children_of(worker)]
            self.assertEqual((len(workers), len(engines)), (2, 2))
            os.kill(workers[0], signal.SIGKILL)
            self.assertTrue(servers.has_ended(engines[0], 10))
            servers.await_server(port, 8)
            self.assertEqual(wrong_answers(port, 100, 4), [])
            process.terminate()
            process.wait()
            for engine in engines:
                self.assertTrue(servers.has_ended(engine, 10))

    def test_a_worker_that_is_killed_in_mid_query(self) -> None:
        with servers.gunicorn(1) as (process, port):
            (worker,) = servers.children_of(process.pid)
            (engine,) = servers.children_of(worker)
            os.kill(engine, signal.SIGSTOP)
            told: list = []
            client = threading.Thread(target=lambda: told.append(servers.get(port, path_of("*"))))
            client.start()
            time.sleep(0.3)
            os.kill(worker, signal.SIGKILL)
            os.kill(engine, signal.SIGCONT)
            client.join()
            self.assertEqual(told, [None])
            self.assertTrue(servers.has_ended(engine, 10))
            servers.await_server(port, 4)
            self.assertEqual(wrong_answers(port, 20, 2), [])

    def test_an_application_that_is_loaded_before_the_fork(self) -> None:
        with servers.gunicorn(2, "--preload") as (_, port):
            self.assertEqual(wrong_answers(port, 200, 8), [])

    def test_a_file_of_names_that_workers_share(self) -> None:
        with tempfile.TemporaryDirectory() as folder:
            with servers.gunicorn(3, NAMES=os.path.join(folder, "names.sqlite")) as (_, port):
                path = path_of("*", count=5) + "&filter=conc+2999"
                self.assertEqual([page_of(port, path) for _ in range(20)], [(1, 1)] * 20)
            self.assertEqual(sorted(os.listdir(folder)), ["names.sqlite", "names.sqlite.lock"])

    def test_slow_clients(self) -> None:
        with servers.gunicorn(1, "--timeout", "1") as (_, port):
            self.assertIn(first_line(port, b"GET /health HTTP/1.1\r\nHost: x\r\n", 20), (b"", b"late"))
            servers.await_server(port, 4)
            self.assertEqual(wrong_answers(port, 20, 2), [])

    def test_requests_that_are_no_http(self) -> None:
        with servers.gunicorn(1) as (_, port):
            for sent, status in (
                (b"hello\r\n\r\n", b"400"),
                (b"GET /" + b"x" * 9000 + b" HTTP/1.1\r\n\r\n", b"400"),
                (b"GET /fhir/metadata HTTP/1.1\r\nHost: x\r\n\r\n", b"200"),
                (
                    b"POST /health HTTP/1.1\r\nHost: x\r\nContent-Type: application/json\r\n"
                    b"Transfer-Encoding: chunked\r\n\r\n2\r\n{}\r\n0\r\n\r\n",
                    b"411",
                ),
            ):
                self.assertIn(status, first_line(port, sent, 20).split())


if __name__ == "__main__":
    unittest.main()
