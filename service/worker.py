"""What each process of the service has of its own: an engine over the release, and the names of its concepts."""
from __future__ import annotations

import logging
import sqlite3
import threading
import time
from contextlib import contextmanager
from typing import Iterator, Optional

from hosecrag import Concept, Description, Expansion, Fault, Hosecrag, Plan, Refused, TooCostly

import problems
from names import MOST_WORDS, Names
from problems import Problem
from settings import MOST_FOUND, Settings

_LOG = logging.getLogger("hosecrag.service")

# How many names the thread asks for at a time, so that requests are answered in between, and how long it may wait.
_NAMES, _NAMES_SECONDS = 20_000, 10.0

# After how many seconds the thread that makes the names looks again whether the engine can answer.
_LOOK = 0.2

# The status of a release that is refused, and after how many seconds it is loaded once more.
_NO_RELEASE, _PAUSE = 500, 10.0

_LOADING = "the release is being loaded"


class Turn:
    """One request's use of the engine. Every call runs under the limit on visits, and all have one time limit."""

    def __init__(self, engine: Hosecrag, limit: int, seconds: float) -> None:
        self._engine, self._limit = engine, limit
        self._deadline = time.monotonic() + seconds

    def check(self, constraint: str) -> None:
        """Raises `Refused` for a text that is no constraint by itself, so that brackets round it do not make one of
        it."""
        self._engine.check(constraint, timeout=self._left())

    def page(self, constraint: str, offset: int, first: int, names: bool = True) -> Expansion:
        """Returns so many concepts of a constraint, from `offset` on, and how many there are."""
        return self._engine.expand(
            constraint, offset=offset, first=first, names=names, limit=self._limit, timeout=self._left()
        )

    def explain(self, constraint: str) -> Plan:
        return self._engine.explain(constraint, timeout=self._left())

    def describe(self, code: str) -> Description:
        return self._engine.describe(code, timeout=self._left())

    def _left(self) -> float:
        """Returns how many seconds are left. Without any, the engine is not asked, so that it need not be ended."""
        left = self._deadline - time.monotonic()
        if left <= 0:
            raise TimeoutError
        return left


class Worker:
    """The engine and the names of one process."""

    def __init__(self, settings: Settings) -> None:
        """Starts the engine, and does not wait for it."""
        self._settings = settings
        self._turn = threading.Lock()
        self._engine = Hosecrag(*settings.folders, lang=settings.language, program=settings.program, wait=False)
        self._names = Names(settings.names)
        self._is_closed = False
        # before this time a release that was refused is not loaded once more
        self._next_load = 0.0
        self._loader = self._maker = threading.Thread()
        self._start_loading()

    @contextmanager
    def turn(self, constraint: str = "", seconds: Optional[float] = None) -> Iterator[Turn]:
        """Lets a request use the engine, as soon as no other does. Raises a Problem for whatever keeps the engine from
        answering `constraint`. An engine that has ended is started again at once. `seconds` is another time limit than
        that of the settings."""
        if not self._turn.acquire(timeout=self._settings.seconds):
            raise problems.throttled("other requests are being answered")
        try:
            self._check_loaded()
            yield Turn(self._engine, self._settings.limit, seconds or self._settings.seconds)
        except Refused as found:
            raise problems.refused(found, constraint) from None
        except TooCostly as found:
            raise problems.too_costly(found, self._settings.limit) from None
        except TimeoutError:
            self._start_loading()
            raise problems.too_late(self._settings.seconds) from None
        except Fault as fault:
            self._start_loading()
            _LOG.warning("the engine has ended: %s", fault)
            raise problems.throttled("the engine has ended, and is started again") from None
        finally:
            self._turn.release()

    def found_names(self, text: str) -> list[int]:
        """Returns the concepts in whose names each word of the text begins a word, by rising identifier."""
        if not self._names.is_made:
            raise problems.throttled("the index of names is being made")
        found = self._names.find(text, MOST_FOUND)
        if found is None:
            text = f"the filter has more than {MOST_WORDS} words, or more than {MOST_FOUND} names have them"
            raise Problem(422, "too-costly", text, "filter")
        return found

    def health(self) -> dict[str, bool]:
        """Tells whether the names are made, or raises a Problem unless the release is loaded. Does not wait for other
        requests."""
        if self._turn.acquire(blocking=False):
            try:
                self._check_loaded()
            finally:
                self._turn.release()
        elif self._loader.is_alive():
            raise problems.throttled(_LOADING)
        return {"ready": True, "names": self._names.is_made}

    def close(self) -> None:
        """Ends the engine."""
        self._is_closed = True
        self._engine.close()
        self._loader.join()
        if self._maker.ident is not None:
            self._maker.join()
        self._names.close()

    def _check_loaded(self) -> None:
        """Raises a Problem unless the release is loaded. Starts the engine if it has ended."""
        if self._loader.is_alive():
            raise problems.throttled(_LOADING)
        if time.monotonic() < self._next_load:
            raise Problem(_NO_RELEASE, "exception", "the release can't be loaded")
        if not self._engine.is_ready():
            self._start_loading()
            raise problems.throttled(_LOADING)

    def _start_loading(self) -> None:
        """Starts the engine, if there is none, and a thread that waits for it."""
        self._engine.is_ready()
        self._loader = threading.Thread(target=self._load, daemon=True)
        self._loader.start()

    def _load(self) -> None:
        """Waits until the release is loaded, and starts to make the names unless they are made."""
        try:
            self._engine.load()
        except (Fault, ValueError) as fault:
            self._next_load = time.monotonic() + _PAUSE
            if not self._is_closed:
                _LOG.error("the release is not loaded: %s", fault)
            return
        if not (self._names.is_made or self._maker.is_alive()):
            self._maker = threading.Thread(target=self._make_names, daemon=True)
            self._maker.start()

    def _make_names(self) -> None:
        """Makes the index of names. It tries again where the engine has ended or is still loading."""
        while not self._is_closed:
            try:
                self._names.make(self._all_concepts)
                return
            except Problem as problem:
                if problem.status == _NO_RELEASE:
                    return
                time.sleep(_LOOK)
            except (sqlite3.Error, OSError, ValueError) as fault:
                if not self._is_closed:
                    _LOG.error("the index of names is not made: %s", fault)
                return

    def _all_concepts(self) -> Iterator[Concept]:
        """Gives all concepts with their names, read in pieces."""
        offset, total = 0, None
        while total is None or offset < total:
            with self.turn("*", _NAMES_SECONDS) as turn:
                page = turn.page("*", offset, _NAMES)
            if total not in (None, page.total):
                raise problems.throttled("the release has changed")
            total = page.total
            offset += len(page)
            yield from page
