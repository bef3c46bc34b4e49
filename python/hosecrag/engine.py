"""A process of the program that is started again where it has ended."""
from __future__ import annotations

import os
import threading
import time
from pathlib import Path
from typing import Optional, Sequence, Union

from .answers import Fault
from .process import Late, Process
from .queries import Answer, Reader
from .turns import Taken, Turns

# A path, as the functions of `os` take it.
FilePath = Union[str, "os.PathLike[str]"]


class Engine:
    """One release, loaded by one process at a time, and one call at a time.

    Whatever interrupts a call between the first byte of its request and the last of its answer ends the process.
    A time limit that is over while a release loads leaves the process to its loading."""

    def __init__(
        self,
        folders: Sequence[FilePath],
        lang: str,
        program: Optional[FilePath],
        ended: Optional[threading.Lock] = None,
    ) -> None:
        """Starts the process, and does not wait for it. `ended` is released when a call ends, to wake one that
        waits."""
        if not folders:
            raise ValueError("a release has a folder at least")
        self._words = [_program(program), "session", "--lang", lang, "--", *[os.fspath(it) for it in folders]]
        self._turns = Turns(ended)
        self._owner = os.getpid()
        self._process: Optional[Process] = None
        self._is_closed = False
        # whether all that was asked of the process is answered and read
        self._is_settled = True
        self._start()

    @property
    def pid(self) -> Optional[int]:
        """The number of the process, if there is one."""
        process = self._process
        return None if process is None else process.pid

    def close(self) -> None:
        """Ends the process, also in the middle of another thread's call, which then raises. Later calls raise
        `ValueError`. In a forked child it leaves the process to its owner."""
        self._is_closed = True
        process = self._process
        if process is None or self._owner != os.getpid():
            return
        process.kill()
        try:
            self._turns.at_once(self._stop)
        except (Taken, RuntimeError):
            pass  # the call that is under way stops the process when it ends

    def load(self, deadline: Optional[float]) -> None:
        """Waits until the release is loaded."""
        self._check_owner()
        self._turns.in_turn(lambda: self._running(deadline), deadline)

    def is_ready(self) -> bool:
        """Whether the release is loaded and no call is under way. It does not wait."""
        if self._is_closed or self._owner != os.getpid():
            return False
        try:
            self._turns.at_once(lambda: self._running(time.monotonic()))
            return True
        except (Late, Taken, ValueError, OSError):
            return False

    def is_loaded(self) -> bool:
        """Whether there is a process that has loaded the release. A call may be under way."""
        process = self._process
        return process is not None and process.is_ready and process.is_alive()

    def ask(self, line: bytes, read: Reader[Answer], deadline: Optional[float]) -> Answer:
        """Sends a line and returns what `read` makes of its answer, as soon as no other call is under way."""
        self._check_owner()
        return self._turns.in_turn(lambda: self._ask(line, read, deadline), deadline)

    def ask_at_once(self, line: bytes, read: Reader[Answer], deadline: Optional[float]) -> Answer:
        """Asks, if no other call is under way; else raises `Taken`."""
        self._check_owner()
        return self._turns.at_once(lambda: self._ask(line, read, deadline))

    def _ask(self, line: bytes, read: Reader[Answer], deadline: Optional[float]) -> Answer:
        """Sends a line and reads its answer, in the turn of this call."""
        try:
            process = self._running(deadline)
            self._is_settled = False
            process.send(line, deadline)
            answer = read(process, deadline)
            if not process.is_at_end():
                raise Fault("the program has answered more than was asked")
            self._is_settled = True
            return answer
        finally:
            if self._is_closed or not self._is_settled:
                self._stop()

    def _check_owner(self) -> None:
        if self._owner != os.getpid():
            raise RuntimeError(f"this object belongs to process {self._owner}: a forked child makes its own")

    def _running(self, deadline: Optional[float]) -> Process:
        """Returns a process that has loaded the release and waits for a request; starts one if there is none."""
        if self._is_closed:
            raise ValueError("this object is closed")
        if self._process is not None and not (self._is_settled and self._process.is_alive()):
            self._stop()
        process = self._process if self._process is not None else self._start()
        self._is_settled = False
        try:
            process.await_ready(deadline)
            self._is_settled = True
        except Late:
            self._is_settled = True
            raise
        finally:
            if not self._is_settled:
                self._stop()
        return process

    def _start(self) -> Process:
        self._is_settled = True
        self._process = Process(self._words)
        return self._process

    def _stop(self) -> None:
        # until the end the process counts as one that owes an answer, whatever interrupts this
        self._is_settled = False
        if self._process is not None:
            self._process.end()
        self._process = None


def _program(program: Optional[FilePath]) -> str:
    """Returns the path of the built program. The script `./hosecrag` is none: it may prove for minutes, and its
    messages would go unseen."""
    built = "crates/hosecrag/out/hosecrag"
    found = os.fspath(program or os.environ.get("HOSECRAG") or Path(__file__).resolve().parents[2] / built)
    beside_script = Path(found).resolve().parent / built
    if beside_script.is_file():
        found = os.fspath(beside_script)
    if not os.access(found, os.X_OK) or os.path.isdir(found):
        raise Fault(
            f"there is no built program {found}: build it by `./hosecrag` at the top of its repository, or name one"
        )
    return found
