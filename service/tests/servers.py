"""Servers of the service, for tests that need one."""
from __future__ import annotations

import os
import shutil
import socket
import subprocess
import threading
import time
import urllib.error
import urllib.request
from contextlib import contextmanager
from typing import Iterator, Optional

import sample
from app import Handler, Service, server

# Debian's gunicorn belongs to Debian's Python.
GUNICORN = shutil.which("gunicorn")


@contextmanager
def wsgiref(service: Service) -> Iterator[int]:
    """Serves from a thread; gives the port."""
    with server(service, 0) as serving:
        thread = threading.Thread(target=serving.serve_forever, args=(0.05,), daemon=True)
        thread.start()
        try:
            yield serving.server_port
        finally:
            serving.shutdown()
            thread.join()


@contextmanager
def quick_wsgiref(service: Service, seconds: float) -> Iterator[int]:
    """Serves from a thread, and leaves a client that sends nothing for so many seconds."""
    before, Handler.timeout = Handler.timeout, seconds
    try:
        with wsgiref(service) as port:
            yield port
    finally:
        Handler.timeout = before


@contextmanager
def gunicorn(workers: int, *words: str, **variables: str) -> Iterator[tuple[subprocess.Popen, int]]:
    """Serves by gunicorn; gives its process and its port, when all workers are ready."""
    port = _free_port()
    environment = {
        **os.environ,
        **variables,
        "RELEASE": os.pathsep.join(sample.FOLDERS),
        "HOSECRAG": sample.PROGRAM,
        "VERSION": sample.VERSION,
        "PORT": str(port),
        "WORKERS": str(workers),
    }
    configuration = os.path.join(os.path.dirname(sample.HERE), "gunicorn.conf.py")
    process = subprocess.Popen(
        [str(GUNICORN), "--config", configuration, "--log-level", "critical", *words],
        env=environment,
        stderr=subprocess.DEVNULL,
        stdout=subprocess.DEVNULL,
    )
    try:
        await_server(port, 4 * workers)
        yield process, port
    finally:
        process.terminate()
        process.wait()


def await_server(port: int, times: int, seconds: float = 60.0) -> None:
    """Waits until a server says so many times in a row that it is ready."""
    end, row = time.monotonic() + seconds, 0
    while row < times:
        if time.monotonic() > end:
            raise AssertionError(f"the server is not ready after {seconds} s")
        status = get(port, "/health")
        row = row + 1 if status == 200 else 0
        if status != 200:
            time.sleep(0.05)


def get(port: int, path: str) -> Optional[int]:
    """Returns the status of a request, or None if there is no answer."""
    try:
        with urllib.request.urlopen(f"http://127.0.0.1:{port}{path}", timeout=30) as response:
            response.read()
            return response.status
    except urllib.error.HTTPError as error:
        with error:
            return error.code
    except OSError:
        return None


def children_of(process: int) -> list[int]:
    """Returns the processes that a process has started."""
    found = []
    for name in filter(str.isdigit, os.listdir("/proc")):
        try:
            with open(f"/proc/{name}/stat") as file:
                state, parent = file.read().rpartition(")")[2].split()[:2]
        except OSError:
            continue
        if int(parent) == process and state != "Z":
            found.append(int(name))
    return found


def has_ended(process: int, seconds: float) -> bool:
    """Returns whether a process ends within so many seconds."""
    end = time.monotonic() + seconds
    while time.monotonic() < end:
        try:
            with open(f"/proc/{process}/stat") as file:
                if file.read().rpartition(")")[2].split()[0] == "Z":
                    return True
        except OSError:
            return True
        time.sleep(0.05)
    return False


def _free_port() -> int:
    with socket.socket() as found:
        found.bind(("127.0.0.1", 0))
        return found.getsockname()[1]
