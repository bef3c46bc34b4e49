"""One process over a release."""
from __future__ import annotations

from typing import Optional

from .engine import Engine, FilePath
from .process import Late
from .queries import Answer, Queries, Reader, deadline_in


class Hosecrag(Queries):
    """A release that is loaded once, by a process of its own that answers one request at a time; several threads
    may ask.

    An exception in the middle of an answer, as for a time limit or Ctrl-C, ends the process, so that no other
    request gets the rest; so does whatever kills it. The next call starts another, which loads the folders as they
    then are. A time limit that is over while a release loads leaves the process to its loading.

    An object belongs to the process that made it: after a fork the child makes its own.
    """

    def __init__(
        self,
        *folders: FilePath,
        lang: str = "en",
        program: Optional[FilePath] = None,
        wait: bool = True,
        timeout: Optional[float] = None,
    ) -> None:
        """Loads the release in these folders, with names in the language `lang` first. `program` is the built
        program; if it is left out, the one that the variable HOSECRAG names, or the one that the repository
        around this package has built. With `wait` the release is loaded on return, or refused by
        `ReleaseRefused`; without, the first call waits for it. `timeout` is a limit on that wait, in seconds."""
        super().__init__()
        self._engine = Engine(folders, lang, program)
        if wait:
            try:
                self.load(timeout=timeout)
            except BaseException:
                self.close()
                raise

    @property
    def pid(self) -> Optional[int]:
        """The number of the process, if there is one."""
        return self._engine.pid

    def load(self, *, timeout: Optional[float] = None) -> None:
        """Waits until the release is loaded, `timeout` seconds at most."""
        try:
            self._engine.load(deadline_in(timeout))
        except Late:
            raise TimeoutError("the release is not loaded yet") from None

    def is_ready(self) -> bool:
        """Whether the release is loaded and no call is under way. It does not wait, and starts the process if
        there is none."""
        return self._engine.is_ready()

    def close(self) -> None:
        self._engine.close()

    def _answer(self, line: bytes, read: Reader[Answer], deadline: Optional[float]) -> Answer:
        return self._engine.ask(line, read, deadline)
