"""One process of the program's `session`, and the bytes of its requests and answers."""
from __future__ import annotations

import os
import select
import signal
import subprocess
import tempfile
import time
import weakref
from typing import IO, Optional

from .answers import Fault, ReleaseRefused

# The most bytes that one read takes: what a pipe holds.
_READ = 1 << 16

# How many seconds a process may take to end once its output has ended.
_ENDING = 5.0

# After how many seconds it is looked at again whether a process has ended.
_LOOK = 0.01

# What refuses an empty line, so what marks the end of whatever was asked before it.
NO_REQUEST = "ERR request"

# The status of a release that is refused.
_RELEASE_REFUSED = 3


class Late(Exception):
    """A time limit was over. Only this package raises it, so no other code's `TimeoutError` is taken for it."""


class Child:
    """A process that was started. `subprocess` starts it, and no more: an exception that interrupts its `poll` can
    leave a lock of its own locked for ever."""

    def __init__(self, words: list[str], told: IO[bytes]) -> None:
        # of its own session, so that Ctrl-C at a terminal reaches the caller alone
        started = subprocess.Popen(
            words,
            stdin=subprocess.PIPE,
            stdout=subprocess.PIPE,
            stderr=told,
            bufsize=0,
            start_new_session=True,
        )
        assert started.stdin is not None and started.stdout is not None
        self.pid, self.stdin, self.stdout = started.pid, started.stdin, started.stdout
        self._owner = os.getpid()
        # how it ended, as `subprocess` has it
        self.status: Optional[int] = None
        # `subprocess` shall not wait for it, nor warn that it runs on
        started.returncode = 0

    def has_ended(self, flags: int = os.WNOHANG) -> bool:
        """Whether the process has ended. Without WNOHANG it waits until it has."""
        if self.status is None:
            try:
                pid, status = os.waitpid(self.pid, flags)
            except ChildProcessError:
                # an exception kept an earlier call from noting how it ended
                self.status = 0
            else:
                if pid:
                    self.status = os.waitstatus_to_exitcode(status)
        return self.status is not None

    def kill(self) -> None:
        """Ends the process, unless a fork made this a copy of its owner's object. A number of a process that has ended
        may be another's, so it is looked at before."""
        if self._owner == os.getpid() and not self.has_ended():
            try:
                os.kill(self.pid, signal.SIGKILL)
            except ProcessLookupError:
                pass  # another thread has noticed its end

    def end(self) -> None:
        """Ends the process, and waits for its end."""
        self.kill()
        if self._owner == os.getpid():
            self.has_ended(0)


class Process:
    """A process of `session`. Requests and answers take turns: whoever sends a request reads its answer to the
    end, or ends the process."""

    def __init__(self, words: list[str]) -> None:
        self._told: IO[bytes] = tempfile.TemporaryFile()
        try:
            self._child = Child(words, self._told)
        except BaseException:
            self._told.close()
            raise
        self._streams: list[IO[bytes]] = [self._child.stdin, self._child.stdout, self._told]
        self._input, self._output = self._child.stdin.fileno(), self._child.stdout.fileno()
        # a write then never waits beyond its time limit; the process's own end of the pipe still blocks
        os.set_blocking(self._input, False)
        self._writable, self._readable = select.poll(), select.poll()
        self._writable.register(self._input, select.POLLOUT)
        self._readable.register(self._output, select.POLLIN)
        self._kept = b""
        # whether the release is loaded
        self.is_ready = False
        self._finalizer = weakref.finalize(self, _end, self._child, self._streams)
        _processes.add(self)
        # its answer shows that the release is loaded; a process that has ended already is noticed there
        try:
            os.write(self._input, b"\n")
        except BrokenPipeError:
            pass

    @property
    def pid(self) -> int:
        return self._child.pid

    def is_alive(self) -> bool:
        return not self._child.has_ended()

    def await_ready(self, deadline: Optional[float]) -> None:
        """Waits until the release is loaded. Nothing is lost if the time is over before."""
        if not self.is_ready:
            line = self.line(deadline)
            if line != NO_REQUEST:
                raise Fault(f"the program does not speak the protocol of `session`: {line}")
            self.is_ready = True

    def send(self, request: bytes, deadline: Optional[float]) -> None:
        """Writes a request, with its line feed."""
        while request:
            try:
                request = request[os.write(self._input, request) :]
            except BlockingIOError:
                _await(self._writable, deadline)
            except BrokenPipeError:
                raise self._fault() from None

    def line(self, deadline: Optional[float]) -> str:
        """Reads a line of an answer, and returns it without its LF."""
        return self.lines(1, deadline)[:-1].decode()

    def lines(self, count: int, deadline: Optional[float]) -> bytes:
        """Reads so many lines of an answer. Lines end in LF alone: a name may have other breaks in it."""
        chunks = [self._kept]
        missing = count - self._kept.count(b"\n")
        while missing > 0:
            chunk = self._read(chunks, deadline)
            chunks.append(chunk)
            missing -= chunk.count(b"\n")
        data = b"".join(chunks)
        end = len(data) if missing == 0 and data.endswith(b"\n") else _end_of_lines(data, count)
        self._kept = data[end:]
        return data[:end]

    def is_at_end(self) -> bool:
        """Whether all that was read is taken."""
        return not self._kept

    def kill(self) -> None:
        """Ends the process, and leaves its streams to whoever reads them: a number of a stream that is closed
        under a reader could be another stream's by the time it reads on."""
        self._child.kill()

    def end(self) -> None:
        """Ends the process and closes its streams. Where this was interrupted, it can be called again."""
        _end(self._child, self._streams)
        self._finalizer.detach()

    def forget(self) -> None:
        """Closes the streams, and lets the process be: another process owns it."""
        self._finalizer.detach()
        _close(self._streams)

    def _read(self, chunks: list[bytes], deadline: Optional[float]) -> bytes:
        if deadline is not None:
            try:
                _await(self._readable, deadline)
            except Late:
                self._kept = b"".join(chunks)
                raise
        chunk = os.read(self._output, _READ)
        if not chunk:
            raise self._fault()
        return chunk

    def _fault(self) -> Exception:
        """Returns the error that tells why the process has ended."""
        late = time.monotonic() + _ENDING
        while not self._child.has_ended():
            if time.monotonic() > late:
                return Fault("the program has closed its streams, and does not end")
            time.sleep(_LOOK)
        status = self._child.status
        self._told.seek(0)
        told = self._told.read().decode(errors="replace").strip()
        if status == _RELEASE_REFUSED:
            return ReleaseRefused(told)
        return Fault(f"{told or 'the program has ended'} (status {status})", status)


def _await(poll: select.poll, deadline: Optional[float]) -> None:
    """Waits until a stream can be used, at most until the deadline, a time of `time.monotonic`."""
    milliseconds = None if deadline is None else max(0.0, (deadline - time.monotonic()) * 1000)
    if not poll.poll(milliseconds):
        raise Late


def _end_of_lines(data: bytes, count: int) -> int:
    """Returns where the first `count` lines end."""
    end = 0
    for _ in range(count):
        end = data.index(b"\n", end) + 1
    return end


def _close(streams: list[IO[bytes]]) -> None:
    for stream in streams:
        stream.close()


def _end(child: Child, streams: list[IO[bytes]]) -> None:
    child.end()
    _close(streams)


# The processes that are not ended. A child that is forked closes their streams, so that they still end with their
# owner.
_processes: weakref.WeakSet[Process] = weakref.WeakSet()


def _forget_all() -> None:
    for process in list(_processes):
        process.forget()


os.register_at_fork(after_in_child=_forget_all)
