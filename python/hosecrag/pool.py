"""Several processes over one release, for several threads."""
from __future__ import annotations

import threading
from typing import Optional, Sequence

from .engine import Engine, FilePath
from .process import Late
from .queries import Answer, Queries, Reader, deadline_in
from .turns import Taken, await_end


class Pool(Queries):
    """A release that is loaded by several processes, so that as many threads are answered at once. A call takes
    a process that is free, one that has loaded the release before others, and waits for one if all are taken. A
    process that was ended by an exception in the middle of an answer is started again at once."""

    def __init__(
        self,
        folders: Sequence[FilePath],
        processes: int,
        *,
        lang: str = "en",
        program: Optional[FilePath] = None,
        wait: bool = True,
        timeout: Optional[float] = None,
    ) -> None:
        """Loads the release in these folders by so many processes; the rest is as for `Hosecrag`."""
        super().__init__()
        if processes < 1:
            raise ValueError("a pool has a process at least")
        self._ended = threading.Lock()
        self._engines: list[Engine] = []
        deadline = deadline_in(timeout)
        try:
            for _ in range(processes):
                self._engines.append(Engine(folders, lang, program, self._ended))
            for engine in self._engines if wait else []:
                engine.load(deadline)
        except Late:
            self.close()
            raise TimeoutError("the release is not loaded yet") from None
        except BaseException:
            self.close()
            raise

    @property
    def pids(self) -> list[int]:
        """The numbers of the processes that there are."""
        return [engine.pid for engine in self._engines if engine.pid is not None]

    def ready(self) -> int:
        """Returns how many processes have loaded the release and are free, and starts those that have ended."""
        return sum(engine.is_ready() for engine in self._engines)

    def close(self) -> None:
        for engine in self._engines:
            engine.close()

    def _answer(self, line: bytes, read: Reader[Answer], deadline: Optional[float]) -> Answer:
        while True:
            loading = []
            for engine in self._engines:
                if not engine.is_loaded():
                    loading.append(engine)
                    continue
                try:
                    return self._ask(engine, line, read, deadline)
                except Taken:
                    pass
            for engine in loading:
                try:
                    return self._ask(engine, line, read, deadline)
                except Taken:
                    pass
            await_end(self._ended, deadline)

    def _ask(self, engine: Engine, line: bytes, read: Reader[Answer], deadline: Optional[float]) -> Answer:
        try:
            return engine.ask_at_once(line, read, deadline)
        except Taken:
            raise
        except BaseException:
            engine.is_ready()
            raise
