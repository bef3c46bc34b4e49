"""What the program answers, as values of Python, and the errors in place of an answer."""
from __future__ import annotations

import re
from dataclasses import dataclass
from decimal import Decimal
from itertools import repeat
from typing import List, Mapping, NamedTuple, Optional, Union


class Refused(ValueError):
    """The text is no constraint. `cause` is the word after `ERR`, `offset` the byte of the text, from 0, where
    it is refused, and `form` the name of a form of the language that is not answered; either may be None."""

    def __init__(self, line: str) -> None:
        words = line.split()
        self.cause = words[1]
        self.offset = int(words[2]) if len(words) > 2 else None
        self.form = words[3] if len(words) > 3 else None
        super().__init__(line)


class TooCostly(ValueError):
    """The plan of the constraint may visit more items than the limit. `bound` says how many; none was visited."""

    def __init__(self, line: str) -> None:
        self.bound = int(line.split()[2])
        super().__init__(line)


class NoIdentifier(ValueError):
    """The text is no concept identifier. `cause` is `length`, `digit`, `zero`, `part` or `check`; or `long` or
    `utf8`, if the whole text is too long or not UTF-8."""

    def __init__(self, line: str) -> None:
        self.cause = line.split()[-1]
        super().__init__(line)


class ReleaseRefused(ValueError):
    """The files are no release: the line that says why."""


class Fault(OSError):
    """The program could not start or go on: what it told, and its `status` (as `subprocess` has it, so less than
    0 if a signal ended it)."""

    def __init__(self, told: str, status: Optional[int] = None) -> None:
        self.status = status
        super().__init__(told)


class Concept(NamedTuple):
    """A concept: its identifier, and its name, if it has one and names were asked for."""

    identifier: int
    name: Optional[str] = None


class Expansion(List[Concept]):
    """A page of the concepts of a constraint, by rising identifier. `total` says how many concepts the
    constraint has in all."""

    def __init__(self, concepts: List[Concept], total: int) -> None:
        super().__init__(concepts)
        self.total = total


class Node(NamedTuple):
    """A node of a plan: how many nodes it stands below, what it does, and how many items it visits at most, besides
    those of the nodes below it."""

    depth: int
    text: str
    bound: int


@dataclass(frozen=True)
class Plan:
    """How a constraint is answered: how many items are visited at most, and the nodes, each before those below
    it."""

    bound: int
    nodes: list[Node]


class Attribute(NamedTuple):
    """An attribute row in force: its group, its type, and its value: a concept, a number, or another text as the
    file has it."""

    group: int
    type: Concept
    value: Union[Concept, Decimal, str]


@dataclass(frozen=True)
class Description:
    """What a release has of a concept. `state` is `active`; or `inactive`, if the row of the concept that counts
    is; or `unknown`, if it has no row. Only of an active concept there is more. Concepts rise by identifier;
    attribute rows go by group, then in the order of the load."""

    state: str
    concept: Concept
    parents: list[Concept]
    children: list[Concept]
    attributes: list[Attribute]
    reference_sets: list[Concept]


# A value that is a concept: its identifier, and its name between bars. A name may have bars and line breaks in it.
_CONCEPT = re.compile(r"([1-9][0-9]{5,17})(?: \|(.*)\|)?", re.DOTALL)


def concept_of(line: str) -> Concept:
    """Returns the concept of a line: `ID`, or `ID |NAME|`."""
    identifier, _, name = line.partition(" ")
    return Concept(int(identifier), name[1:-1] if name else None)


def concepts_of(data: bytes) -> list[Concept]:
    """Returns the concepts of lines that each end in LF. A name may have other line breaks in it."""
    lines = data.decode().split("\n")
    lines.pop()
    parts = map(str.partition, lines, repeat(" "))
    # `Concept(..)` would call a function of Python for each of up to half a million concepts
    return [tuple.__new__(Concept, (int(digits), name[1:-1] if name else None)) for digits, _, name in parts]


def identifiers_of(data: bytes) -> list[Concept]:
    """Returns the concepts of lines that have identifiers alone."""
    return [tuple.__new__(Concept, (identifier, None)) for identifier in map(int, data.split())]


def plan_of(lines: list[str]) -> Plan:
    """Returns the plan of `PLAN BOUND` and a line for each node, with a space in front for each node above it."""
    nodes = []
    for line in lines[1:]:
        text, _, bound = line.lstrip(" ").rpartition(" ")
        nodes.append(Node(len(line) - len(line.lstrip(" ")), text, int(bound)))
    return Plan(int(lines[0].removeprefix("PLAN ")), nodes)


def type_of(line: str) -> int:
    """Returns the identifier of the type in the line of an attribute row."""
    return int(line.split(" ", 2)[1])


def attribute_of(line: str, names: Mapping[int, Optional[str]]) -> Attribute:
    """Returns the attribute row of a line `GROUP TYPE VALUE`, given the names of types. The names are needed,
    since a name or a text may have in it what ends a name."""
    group, identifier, _ = line.split(" ", 2)
    kind = Concept(int(identifier), names.get(int(identifier)))
    front = f"{group} {identifier} " + (f"|{kind.name}| " if kind.name is not None else "")
    if not line.startswith(front):
        raise Fault(f"the type of a row is not the concept that the program named: {line}")
    return Attribute(int(group), kind, _value_of(line[len(front) :]))


def _value_of(text: str) -> Union[Concept, Decimal, str]:
    if text.startswith("#"):
        return Decimal(text[1:])
    found = _CONCEPT.fullmatch(text)
    return Concept(int(found[1]), found[2]) if found else text
