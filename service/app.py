"""A FHIR R4 terminology service for SNOMED CT: a WSGI application (PEP 3333). Run as a script, it serves this machine
alone, at the port that PORT names."""
from __future__ import annotations

import json
import os
import sys
import threading
import traceback
from http import HTTPStatus
from pathlib import Path
from socketserver import ThreadingMixIn
from typing import Any, Callable, Iterable, Optional
from wsgiref.simple_server import WSGIRequestHandler, WSGIServer, make_server

sys.path.insert(1, str(Path(__file__).resolve().parents[1] / "python"))

import operations  # noqa: E402
import page  # noqa: E402
import parameters  # noqa: E402
from capabilities import metadata  # noqa: E402
from parameters import Parameters  # noqa: E402
from problems import Header, Json, Problem, not_found  # noqa: E402
from settings import Settings, Unset, from_environment  # noqa: E402
from worker import Worker  # noqa: E402

# What a WSGI server gives and takes.
Environ = dict[str, Any]
StartResponse = Callable[[str, list[tuple[str, str]]], Any]

_ROUTES: dict[str, Callable[[Worker, Settings, Parameters], Json]] = {
    "/fhir/metadata": metadata,
    "/fhir/ValueSet/$expand": operations.expand,
    "/fhir/ValueSet/$validate-code": operations.validate_in_value_set,
    "/fhir/CodeSystem/$validate-code": operations.validate_in_code_system,
    "/fhir/CodeSystem/$lookup": operations.look_up,
    "/fhir/CodeSystem/$subsumes": operations.subsumes,
    "/explain": operations.explain,
    "/health": operations.health,
}

_METHODS = ("GET", "HEAD", "POST")
_FHIR, _JSON = "application/fhir+json; charset=utf-8", "application/json; charset=utf-8"
_HTML = "text/html; charset=utf-8"

_ENCODER = json.JSONEncoder(ensure_ascii=False, separators=(",", ":"))


class Service:
    """The application. Each process has a worker of its own, made at the first request or by `start`."""

    def __init__(self, settings: Optional[Settings] = None) -> None:
        """Without settings, the environment has them."""
        self._settings = settings
        self._making = threading.Lock()
        self._workers: dict[int, Worker] = {}

    def start(self) -> tuple[Worker, Settings]:
        """Returns the worker of this process, and makes it if there is none."""
        worker = self._workers.get(os.getpid())
        if worker is None:
            with self._making:
                if self._settings is None:
                    self._settings = from_environment(os.environ)
                worker = self._workers.get(os.getpid()) or Worker(self._settings)
                self._workers[os.getpid()] = worker
        assert self._settings is not None
        return worker, self._settings

    def close(self) -> None:
        """Ends the worker of this process."""
        worker = self._workers.pop(os.getpid(), None)
        if worker is not None:
            worker.close()

    def __call__(self, environ: Environ, start_response: StartResponse) -> Iterable[bytes]:
        path = environ.get("PATH_INFO", "")
        headers = [Header("X-Content-Type-Options", "nosniff"), Header("Cache-Control", "no-store")]
        try:
            _check_method(environ)
            if path in ("", "/"):
                data, policy = page.read()
                headers += [Header("Content-Security-Policy", policy), Header("Referrer-Policy", "no-referrer")]
                return _answered(environ, start_response, 200, _HTML, data, headers)
            status, answer = 200, self._answer(path, environ)
        except Problem as problem:
            status, answer = problem.status, problem.outcome()
            headers += problem.headers
        except Exception as fault:
            traceback.print_exc(file=environ["wsgi.errors"])
            status, answer = 500, Problem(500, "exception", type(fault).__name__).outcome()
        kind = _FHIR if "resourceType" in answer else _JSON
        data = _ENCODER.encode(answer).encode()
        return _answered(environ, start_response, status, kind, data, headers)

    def _answer(self, path: str, environ: Environ) -> Json:
        """Returns the answer of an operation."""
        operation = _ROUTES.get(path)
        if operation is None:
            raise not_found(f"there is no {path[:100]}")
        pairs = parameters.from_query(environ.get("QUERY_STRING", ""))
        if environ["REQUEST_METHOD"] == "POST":
            pairs += parameters.from_body(environ)
        asked = Parameters(pairs)
        _check_format(asked.optional("_format") or environ.get("HTTP_ACCEPT", ""))
        worker, settings = self.start()
        return operation(worker, settings, asked)


def _check_method(environ: Environ) -> None:
    method = environ["REQUEST_METHOD"]
    if method not in _METHODS:
        headers = (Header("Allow", ", ".join(_METHODS)),)
        raise Problem(405, "not-supported", f"the method {method[:20]} is not supported", headers=headers)


def _check_format(wanted: Optional[str]) -> None:
    """Raises a Problem if a client takes no JSON."""
    if wanted and "json" not in wanted and "*" not in wanted:
        raise Problem(406, "not-supported", "answers are JSON alone")


def _answered(
    environ: Environ, start_response: StartResponse, status: int, kind: str, data: bytes, headers: Iterable[Header]
) -> list[bytes]:
    """Starts a response, and returns its body, which is empty for the method HEAD."""
    lines = [("Content-Type", kind), ("Content-Length", str(len(data))), *((it.name, it.value) for it in headers)]
    start_response(f"{status} {HTTPStatus(status).phrase}", lines)
    return [] if environ["REQUEST_METHOD"] == "HEAD" else [data]


class _Server(ThreadingMixIn, WSGIServer):
    """A server with a thread for each connection, so that a browser's idle connections hold up no other."""

    daemon_threads = True


class Handler(WSGIRequestHandler):
    """Answers a request, and leaves a client that sends nothing for ten seconds."""

    timeout = 10

    def handle(self) -> None:
        try:
            super().handle()
        except TimeoutError:
            self.close_connection = True

    def log_message(self, format: str, *values: Any) -> None:
        """Keeps the names of constraints out of the log."""


def server(service: Service, port: int) -> WSGIServer:
    """Returns a server of this machine alone, for a look."""
    return make_server("127.0.0.1", port, service, _Server, Handler)


application = Service()


def main() -> None:
    try:
        application.start()
    except (Unset, OSError) as fault:
        sys.exit(f"{fault}")
    with server(application, int(os.environ.get("PORT") or 8080)) as serving:
        print(f"http://127.0.0.1:{serving.server_port}/", file=sys.stderr, flush=True)
        try:
            serving.serve_forever()
        except KeyboardInterrupt:
            pass
    application.close()


if __name__ == "__main__":
    main()
