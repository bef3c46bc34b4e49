"""The operations of the service: each takes the parameters of a request, and returns the JSON of its answer."""
from __future__ import annotations

import re
from typing import Iterator, Optional

from hosecrag import Concept, Description, NoIdentifier

import problems
import resources
from parameters import Parameters
from problems import Json
from settings import MOST_PAGE, PAGE, SNOMED_CT, Settings
from value_sets import constraint_of, is_identifier
from worker import Turn, Worker

# The most bytes of a line that the engine reads, and how many of them are not the constraint's.
_LINE, _REST = 65_535, 512

# The parameters that an operation knows besides those that it reads: what they ask for is always so.
_ALWAYS = ("activeOnly", "excludeNested", "excludeNotForUI", "excludePostCoordinated", "abstract")
_NEVER = ("includeDesignations", "includeDefinition")

# Why a text is no identifier of a concept.
_NO_IDENTIFIER = {
    "length": "it has not 6 to 18 digits",
    "digit": "not all of it are digits",
    "zero": "it begins with a zero",
    "part": "it is that of another component",
    "check": "its check digit is wrong",
    "long": "it is too long",
}


class _NoConcept(Exception):
    """A code is none of a concept of the release: the sentence that says why."""


def expand(worker: Worker, settings: Settings, asked: Parameters) -> Json:
    """`ValueSet/$expand`: a page of the concepts of an implicit value set, all or those whose names have some words."""
    asked.check_names(("url", "count", "offset", "filter", "displayLanguage", *_ALWAYS, *_NEVER))
    for name in _NEVER:
        asked.check_constant(name, "false")
    _check_language(asked, settings)
    url = asked.text("url")
    constraint = constraint_of(url, settings.version)
    count, offset = min(asked.number("count", PAGE), MOST_PAGE), asked.number("offset", 0)
    words = asked.optional("filter")
    if words is None or not words.strip():
        with worker.turn(constraint) as turn:
            page = turn.page(constraint, offset, count)
        total, concepts = page.total, list(page)
    else:
        total, concepts = _filtered(worker, constraint, words, offset, count)
    return resources.expansion(url, total, offset, _echoed(settings, count, offset, words), concepts)


def validate_in_value_set(worker: Worker, settings: Settings, asked: Parameters) -> Json:
    """`ValueSet/$validate-code`: whether a code is in an implicit value set."""
    asked.check_names(("url", "code", "system", "systemVersion", "version", "display", "displayLanguage", *_ALWAYS))
    _check_language(asked, settings)
    constraint = constraint_of(asked.text("url"), settings.version)
    system = asked.text("system")
    code = asked.text("code")
    _check_version(asked, settings)
    if system != SNOMED_CT:
        return resources.validation(False, f"the value set has codes of {SNOMED_CT} alone")
    return _validated(worker, constraint, code, asked.optional("display"))


def validate_in_code_system(worker: Worker, settings: Settings, asked: Parameters) -> Json:
    """`CodeSystem/$validate-code`: whether a code is a concept in force."""
    asked.check_names(("url", "system", "code", "version", "display", "displayLanguage", *_ALWAYS))
    _check_language(asked, settings)
    _check_system(asked, "url", "system")
    _check_version(asked, settings)
    return _validated(worker, "*", asked.text("code"), asked.optional("display"))


def look_up(worker: Worker, settings: Settings, asked: Parameters) -> Json:
    """`CodeSystem/$lookup`: what the release has of a concept."""
    asked.check_names(("system", "code", "version", "display", "property", "displayLanguage"))
    _check_language(asked, settings)
    code = asked.text("code")
    _check_system(asked, "system")
    _check_version(asked, settings)
    with worker.turn() as turn:
        try:
            found = _described(turn, code)
        except _NoConcept as reason:
            raise problems.not_found(str(reason), "code") from None
    return resources.looked_up(found, settings.version, asked.all("property"))


def subsumes(worker: Worker, settings: Settings, asked: Parameters) -> Json:
    """`CodeSystem/$subsumes`: how two concepts in force stand to each other."""
    asked.check_names(("codeA", "codeB", "system", "version", "display"))
    codes = asked.text("codeA"), asked.text("codeB")
    _check_system(asked, "system")
    _check_version(asked, settings)
    with worker.turn() as turn:
        for name, code in zip(("codeA", "codeB"), codes):
            reason = _not_in_force(turn, code)
            if reason is not None:
                raise problems.not_found(reason, name)
        outcome = _outcome(turn, *codes)
    return resources.parameters([resources.parameter("outcome", ("valueCode", outcome))])


def explain(worker: Worker, settings: Settings, asked: Parameters) -> Json:
    """`/explain`: the plan of the constraint of an implicit value set, with bounds."""
    asked.check_names(("url",))
    constraint = constraint_of(asked.text("url"), settings.version)
    with worker.turn(constraint) as turn:
        return resources.plan(turn.explain(constraint))


def health(worker: Worker, settings: Settings, asked: Parameters) -> Json:
    """`/health`: whether the release is loaded and the names are made."""
    return {**worker.health()}


def _filtered(worker: Worker, constraint: str, words: str, offset: int, count: int) -> tuple[int, list[Concept]]:
    """Returns how many concepts of a constraint have names with these words, and a page of them. The identifiers of
    such names go to the engine in pieces. The pieces rise, so their pages one after another are in order."""
    found = worker.found_names(words)
    total = 0
    concepts: list[Concept] = []
    with worker.turn(constraint) as turn:
        turn.check(constraint)
        for piece in _pieces(found, len(constraint.encode())):
            page = turn.page(f"({constraint}) AND ({piece})", max(0, offset - total), count - len(concepts))
            total += page.total
            concepts += page
    return total, concepts


def _pieces(identifiers: list[int], length: int) -> Iterator[str]:
    """Gives constraints `ID OR ID ..` of all identifiers. Each fits into a line with a constraint of this length."""
    most = (_LINE - _REST - length) // len("900000000000000000 OR ")
    for start in range(0, len(identifiers), most):
        yield " OR ".join(map(str, identifiers[start : start + most]))


def _echoed(settings: Settings, count: int, offset: int, words: Optional[str]) -> list[Json]:
    """Returns the parameters of an expansion: those of the request, the version, and the limit on visits."""
    echoed = []
    if settings.version is not None:
        echoed.append(resources.parameter("version", ("valueUri", f"{SNOMED_CT}|{settings.version}")))
    echoed.append(resources.parameter("count", ("valueInteger", count)))
    echoed.append(resources.parameter("offset", ("valueInteger", offset)))
    if words is not None:
        echoed.append(resources.parameter("filter", ("valueString", words)))
    echoed.append(resources.parameter("displayLanguage", ("valueCode", settings.language)))
    echoed.append(resources.parameter("limit", ("valueDecimal", settings.limit)))
    return echoed


def _validated(worker: Worker, constraint: str, code: str, display: Optional[str]) -> Json:
    """Returns whether a code is among the concepts of a constraint, and has this display, if one is given."""
    with worker.turn(constraint) as turn:
        turn.check(constraint)
        page = turn.page(f"{code} AND ({constraint})", 0, 1) if is_identifier(code) else None
        if not page:
            return resources.validation(False, _not_in_force(turn, code) or f"{code} is not in the value set")
    name = page[0].name
    if display is not None and display != name:
        text = f"the display of {code} is not {display[:200]!r}, but {name!r}" if name else f"{code} has no name"
        return resources.validation(False, text, name)
    return resources.validation(True, display=name)


def _outcome(turn: Turn, code: str, other: str) -> str:
    """Returns how two concepts in force stand to each other, in a word of FHIR's ConceptSubsumptionOutcome."""
    if code == other:
        return "equivalent"
    if turn.page(f"{other} AND <{code}", 0, 0).total:
        return "subsumes"
    if turn.page(f"{code} AND <{other}", 0, 0).total:
        return "subsumed-by"
    return "not-subsumed"


def _not_in_force(turn: Turn, code: str) -> Optional[str]:
    """Returns why a code is no concept in force, or None if it is one."""
    if is_identifier(code) and turn.page(code, 0, 0).total:
        return None
    try:
        state = _described(turn, code).state
    except _NoConcept as reason:
        return str(reason)
    return None if state == "active" else f"{code} is inactive"


def _described(turn: Turn, code: str) -> Description:
    """Returns what the release has of a concept, in force or not. Raises `_NoConcept` if it has nothing."""
    if not re.fullmatch("[0-9]+", code):
        raise _NoConcept(f"{code[:40]!r} is no SNOMED CT identifier: not all of it are digits")
    try:
        found = turn.describe(code)
    except NoIdentifier as refusal:
        cause = _NO_IDENTIFIER.get(refusal.cause, refusal.cause)
        raise _NoConcept(f"{code[:40]} is no identifier of a concept: {cause}") from None
    if found.state == "unknown":
        raise _NoConcept(f"{code} is unknown in this release")
    return found


def _check_system(asked: Parameters, *names: str) -> None:
    """Raises a Problem unless one of these parameters is given, and all that are name SNOMED CT."""
    systems = [(name, asked.optional(name)) for name in names]
    if all(system is None for _, system in systems):
        raise problems.required(names[0])
    for name, system in systems:
        if system not in (None, SNOMED_CT):
            raise problems.not_found(f"unknown code system: {str(system)[:200]}", name)


def _check_version(asked: Parameters, settings: Settings) -> None:
    """Raises a Problem for another version of the code system than that of the release."""
    for name in ("version", "systemVersion"):
        version = asked.optional(name)
        if version is not None and version != settings.version:
            raise problems.not_found(f"unknown version of the code system: {version[:200]}", name)


def _check_language(asked: Parameters, settings: Settings) -> None:
    """Raises a Problem for another language than that of the names. A region is passed over."""
    language = asked.optional("displayLanguage")
    if language is not None and language.partition("-")[0] != settings.language:
        text = f"names are in the language '{settings.language}' alone"
        raise problems.not_supported(text, "displayLanguage")
