"""Calls that take turns."""
from __future__ import annotations

import threading
import time
from typing import Callable, Optional, TypeVar

from .process import Late

Answer = TypeVar("Answer")

# After how many seconds one that waits for its turn looks again.
_LOOK = 0.05


class Taken(Exception):
    """Another call is under way."""


class Turns:
    """Lets one call act at a time, also if signals interrupt it anywhere. A call has its turn as long as a lock
    of its own is locked, which the `with` of that call alone locks and unlocks. Whoever waits does not touch
    that lock: an exception between taking a lock and releasing it would leave it locked for ever."""

    def __init__(self, ended: Optional[threading.Lock] = None) -> None:
        self._guard = threading.Lock()
        self._turn, self._holder = threading.Lock(), 0
        # wakes one that waits when a call ends; a hint alone, since waiters look again after `_LOOK` seconds
        self._ended = threading.Lock() if ended is None else ended

    def at_once(self, act: Callable[[], Answer]) -> Answer:
        """Acts, if no other call is under way; else raises `Taken`."""
        turn = threading.Lock()
        has_turn = False
        try:
            with turn:
                self._claim(turn)
                has_turn = True
                return act()
        finally:
            if has_turn:
                wake(self._ended)

    def in_turn(self, act: Callable[[], Answer], deadline: Optional[float]) -> Answer:
        """Acts as soon as no other call is under way."""
        while True:
            try:
                return self.at_once(act)
            except Taken:
                pass
            await_end(self._ended, deadline)

    def _claim(self, turn: threading.Lock) -> None:
        me = threading.get_ident()
        with self._guard:
            if self._turn.locked():
                if self._holder == me:
                    raise RuntimeError("a call was made in the middle of another, as by a handler of signals")
                raise Taken
            self._turn, self._holder = turn, me


def wake(ended: threading.Lock) -> None:
    """Wakes one thread that waits for the end of a call, if there is one."""
    try:
        ended.release()
    except RuntimeError:
        pass


def await_end(ended: threading.Lock, deadline: Optional[float]) -> None:
    """Waits until a call may have ended."""
    left = _LOOK if deadline is None else deadline - time.monotonic()
    if left <= 0:
        raise Late
    ended.acquire(timeout=min(left, _LOOK))
