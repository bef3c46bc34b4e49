"""What a release is asked, and how its answers are read."""
from __future__ import annotations

import abc
import threading
import time
from collections import OrderedDict
from typing import Callable, Optional, TypeVar, Union

from . import answers
from .answers import Description, Expansion, NoIdentifier, Plan, Refused, TooCostly
from .process import NO_REQUEST, Late, Process

Answer = TypeVar("Answer")
Self = TypeVar("Self", bound="Queries")

# What reads the answer of a request to its end.
Reader = Callable[[Process, Optional[float]], Answer]

# How many constraints are kept that were checked by themselves.
_CHECKED = 1000

# The greatest number of a request.
_MOST = (1 << 64) - 1

# The identifiers that a constraint can name have 6 to 18 digits.
_LEAST_IDENTIFIER, _MOST_IDENTIFIER = 10**5, 10**18 - 1

# How many types are asked for their names at a time.
_TYPES = 1000


class Queries(abc.ABC):
    """What a release is asked. In every call `timeout` is a number of seconds: if they are over before the
    answer is there, `TimeoutError` is raised. `limit` is the greatest number of items that the plan may visit:
    if its bound is above that, `TooCostly` is raised and nothing is visited. A text that is no constraint raises
    `Refused`."""

    def __init__(self) -> None:
        self._checked: OrderedDict[str, None] = OrderedDict()
        self._checking = threading.Lock()

    @abc.abstractmethod
    def close(self) -> None:
        """Ends what answers, also in the middle of another thread's call, which then raises. Later calls raise
        `ValueError`. In a forked child it leaves the processes to their owner."""

    @abc.abstractmethod
    def _answer(self, line: bytes, read: Reader[Answer], deadline: Optional[float]) -> Answer:
        """Sends a line, and returns what `read` makes of its answer. Raises `Late` if the time is over."""

    def __enter__(self: Self) -> Self:
        return self

    def __exit__(self, *_: object) -> None:
        self.close()

    def expand(
        self,
        constraint: str,
        *,
        offset: int = 0,
        first: Optional[int] = None,
        names: bool = True,
        limit: Optional[int] = None,
        timeout: Optional[float] = None,
    ) -> Expansion:
        """Returns the concepts of a constraint, by rising identifier: those from `offset` on (0 is the first),
        `first` of them at most, with their names or without."""
        total, data = self._page(constraint, offset, first, names, limit, deadline_in(timeout))
        return Expansion(answers.concepts_of(data) if names else answers.identifiers_of(data), total)

    def count(self, constraint: str, *, limit: Optional[int] = None, timeout: Optional[float] = None) -> int:
        """Returns how many concepts a constraint has."""
        return self._page(constraint, 0, 0, False, limit, deadline_in(timeout))[0]

    def is_member(
        self, concept: int, constraint: str, *, limit: Optional[int] = None, timeout: Optional[float] = None
    ) -> bool:
        """Returns whether a concept is among those of a constraint. A number that is no concept's identifier is
        not. The limit is one of the constraint `ID AND (CONSTRAINT)`, which is what is asked."""
        deadline = deadline_in(timeout)
        self._check(constraint, deadline)
        if not _LEAST_IDENTIFIER <= concept <= _MOST_IDENTIFIER:
            return False
        return self._page(f"{concept} AND ({constraint})", 0, 0, False, limit, deadline)[0] == 1

    def check(self, constraint: str, *, timeout: Optional[float] = None) -> None:
        """Raises `Refused` for a text that is no constraint by itself. Nothing is visited. Whoever puts a text into
        brackets checks it before: `*) OR (*` is none, and `(*) OR (*)` is one."""
        self._check(constraint, deadline_in(timeout))

    def explain(self, constraint: str, *, timeout: Optional[float] = None) -> Plan:
        """Returns the plan of a constraint. Nothing is visited."""
        # an explanation ends where the next answer begins, so an empty line follows that is refused
        lines = self._exchange(f"explain {_line(constraint)}\n", _read_plan, deadline_in(timeout))
        if lines[0].startswith("ERR "):
            raise Refused(lines[0])
        return answers.plan_of(lines)

    def describe(self, concept: Union[int, str], *, timeout: Optional[float] = None) -> Description:
        """Returns what the release has of a concept, given by its identifier, or by a text of it that may have a
        term (`101009 |Beta|`). A text that is no concept identifier raises `NoIdentifier`: a mistyped one is not
        told as unknown."""
        deadline = deadline_in(timeout)
        text = _flat(str(concept))
        if not text:
            raise NoIdentifier("ERR id length")
        head, data = self._exchange(f"describe {text}", _read_description, deadline)
        if head.startswith("ERR "):
            raise NoIdentifier(head)
        state, _, named = head.partition(" ")
        if state != "CONCEPT":
            return Description(state.lower(), answers.concept_of(named), [], [], [], [])
        parents, children, attributes, reference_sets = data
        names = self._names_of_types(sorted({answers.type_of(it) for it in _lines(attributes)}), deadline)
        return Description(
            "active",
            answers.concept_of(named),
            answers.concepts_of(parents),
            answers.concepts_of(children),
            [answers.attribute_of(it, names) for it in _lines(attributes)],
            answers.concepts_of(reference_sets),
        )

    def _exchange(self, request: str, read: Reader[Answer], deadline: Optional[float]) -> Answer:
        line = f"{request}\n".encode()
        try:
            return self._answer(line, read, deadline)
        except Late:
            raise TimeoutError("the time limit is over") from None

    def _page(
        self,
        constraint: str,
        offset: int,
        first: Optional[int],
        names: bool,
        limit: Optional[int],
        deadline: Optional[float],
    ) -> tuple[int, bytes]:
        """Returns how many concepts a constraint has, and the lines of a page of them."""
        verb = "list" if names else "ids"
        numbers = f"{_number(offset)} {_number_or_none(first)} {_number_or_none(limit)}"

        def read(process: Process, until: Optional[float]) -> tuple[str, bytes]:
            head = process.line(until)
            if not head.startswith("OK "):
                return head, b""
            left = max(0, int(head.removeprefix("OK ")) - offset)
            return head, process.lines(left if first is None else min(first, left), until)

        head, data = self._exchange(f"{verb} {numbers} {_line(constraint)}", read, deadline)
        if head.startswith("ERR bound "):
            raise TooCostly(head)
        if head.startswith("ERR "):
            raise Refused(head)
        return int(head.removeprefix("OK ")), data

    def _check(self, constraint: str, deadline: Optional[float]) -> None:
        with self._checking:
            if constraint in self._checked:
                self._checked.move_to_end(constraint)
                return
        try:
            # no plan that visits anything is executed under this limit
            self._page(constraint, 0, 0, False, 0, deadline)
        except TooCostly:
            pass
        with self._checking:
            self._checked[constraint] = None
            while len(self._checked) > _CHECKED:
                self._checked.popitem(last=False)

    def _names_of_types(self, types: list[int], deadline: Optional[float]) -> dict[int, Optional[str]]:
        """Returns the names of those types that are active concepts and have one."""
        names: dict[int, Optional[str]] = {}
        for start in range(0, len(types), _TYPES):
            asked = " OR ".join(map(str, types[start : start + _TYPES]))
            names.update(answers.concepts_of(self._page(asked, 0, None, True, None, deadline)[1]))
        return names


def _read_plan(process: Process, deadline: Optional[float]) -> list[str]:
    """Reads an explanation, or the line that refuses the text, and the refusal of the empty line after it."""
    lines = [process.line(deadline)]
    if lines[0].startswith("ERR "):
        process.lines(1, deadline)
        return lines
    while (line := process.line(deadline)) != NO_REQUEST:
        lines.append(line)
    return lines


def _read_description(process: Process, deadline: Optional[float]) -> tuple[str, list[bytes]]:
    """Reads what is told of a concept: its first line, and the lines of parents, children, attributes and
    reference sets; each of these four begins with how many lines it has."""
    head = process.line(deadline)
    if not head.startswith("CONCEPT "):
        return head, []
    return head, [process.lines(int(process.line(deadline).partition(" ")[2]), deadline) for _ in range(4)]


def _lines(data: bytes) -> list[str]:
    return data.decode().split("\n")[:-1]


def _flat(text: str) -> str:
    """A line feed is a blank of the language, so a text stays what it is with a space in its place."""
    return text.replace("\n", " ")


def _line(constraint: str) -> str:
    """Returns the line of a constraint."""
    line = _flat(constraint)
    if not line:
        # what the program answers to a text of blanks; without any text there would be no request
        raise Refused("ERR syntax")
    return line


def _number(number: int) -> str:
    if not 0 <= number <= _MOST:
        raise ValueError(f"no number from 0 to 2^64 - 1: {number}")
    return f"{number:d}"


def _number_or_none(number: Optional[int]) -> str:
    return "-" if number is None else _number(number)


def deadline_in(timeout: Optional[float]) -> Optional[float]:
    """Returns the time of `time.monotonic` when so many seconds will be over."""
    return None if timeout is None else time.monotonic() + timeout
