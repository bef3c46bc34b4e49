"""Answers that are an OperationOutcome."""
from __future__ import annotations

from typing import Any, NamedTuple, Optional

from hosecrag import Refused, TooCostly

# A resource of FHIR, or a part of one.
Json = dict[str, Any]

# After how many seconds a client may ask again.
RETRY_AFTER = "2"

# The URIs of extensions: the name of an attribute's type, and what an issue tells of a constraint.
NAME = "urn:hosecrag:name"
CAUSE, FORM, BOUND = "urn:hosecrag:cause", "urn:hosecrag:form", "urn:hosecrag:bound"
BYTE_OFFSET, CHARACTER_OFFSET = "urn:hosecrag:byte-offset", "urn:hosecrag:character-offset"

_CAUSES = {
    "depth": "more than 64 brackets are open at once",
    "limit": "a number has more than 18 digits",
    "long": "the text is too long",
    "syntax": "the words make no constraint",
    "token": "no word of the language begins here",
    "unsupported": "the form is not supported",
    "utf8": "the text is not UTF-8",
}


class Header(NamedTuple):
    """A header line of HTTP."""

    name: str
    value: str


class Problem(Exception):
    """An error that a client is told: a status of HTTP, a code of FHIR's IssueType, a sentence, and the parameter at
    fault."""

    def __init__(
        self,
        status: int,
        code: str,
        text: str,
        parameter: Optional[str] = None,
        extensions: tuple[Json, ...] = (),
        headers: tuple[Header, ...] = (),
    ) -> None:
        super().__init__(text)
        self.status, self.code, self.text, self.parameter = status, code, text, parameter
        self.extensions, self.headers = extensions, headers

    def outcome(self) -> Json:
        """Returns the OperationOutcome."""
        issue: Json = {"severity": "error", "code": self.code, "details": {"text": self.text}, "diagnostics": self.text}
        if self.parameter is not None:
            issue["expression"] = [self.parameter]
        if self.extensions:
            issue["extension"] = list(self.extensions)
        return {"resourceType": "OperationOutcome", "issue": [issue]}


def not_found(text: str, parameter: Optional[str] = None) -> Problem:
    return Problem(404, "not-found", text, parameter)


def invalid(text: str, parameter: Optional[str] = None) -> Problem:
    return Problem(400, "invalid", text, parameter)


def required(parameter: str) -> Problem:
    return Problem(400, "required", f"the parameter '{parameter}' is missing", parameter)


def not_supported(text: str, parameter: Optional[str] = None) -> Problem:
    return Problem(422, "not-supported", text, parameter)


def too_long(text: str, parameter: Optional[str] = None) -> Problem:
    return Problem(413, "too-long", text, parameter)


def throttled(text: str) -> Problem:
    return Problem(503, "throttled", text, headers=(Header("Retry-After", RETRY_AFTER),))


def too_late(seconds: float) -> Problem:
    return Problem(422, "too-costly", f"the answer was not there after {seconds:g} s")


def too_costly(found: TooCostly, limit: int) -> Problem:
    """Tells the bound of a plan that is above the limit."""
    text = f"the plan may visit {found.bound} items, and the limit is {limit}"
    return Problem(422, "too-costly", text, extensions=({"url": BOUND, "valueDecimal": found.bound},))


def refused(found: Refused, constraint: str) -> Problem:
    """Tells why and where a text is no constraint: at which byte, and at which character, both from 0."""
    text = f"the constraint is refused: {_CAUSES.get(found.cause, found.cause)}"
    extensions: list[Json] = [{"url": CAUSE, "valueCode": found.cause}]
    if found.form is not None:
        text += f" ({found.form})"
        extensions.append({"url": FORM, "valueCode": found.form})
    if found.offset is not None:
        text += f", at byte {found.offset}"
        character = len(constraint.encode()[: found.offset].decode(errors="replace"))
        extensions.append({"url": BYTE_OFFSET, "valueInteger": found.offset})
        extensions.append({"url": CHARACTER_OFFSET, "valueInteger": character})
    status, code = (422, "not-supported") if found.cause == "unsupported" else (400, "invalid")
    return Problem(status, code, text, "url", tuple(extensions))
