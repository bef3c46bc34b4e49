"""The parameters of a request, from its query string and its body."""
from __future__ import annotations

import json
import re
import urllib.parse
from typing import Any, Iterable, Optional

from problems import Json, Problem, invalid, not_supported, required, too_long
from settings import MOST_BODY, MOST_QUERY

_MOST_FIELDS = 50

# The greatest integer of FHIR.
_MOST_INTEGER = (1 << 31) - 1

# Parameters of any request that say how the answer is written.
_OF_FORMAT = ("_format", "_pretty")


class Parameters:
    """The parameters of a request. Each name has the texts that were given for it."""

    def __init__(self, pairs: Iterable[tuple[str, str]]) -> None:
        self._texts: dict[str, list[str]] = {}
        for name, text in pairs:
            _check_encodable(name, text)
            self._texts.setdefault(name, []).append(text)

    def check_names(self, known: Iterable[str]) -> None:
        """Raises a Problem for a parameter that is not known, since the answer would not be what was asked for."""
        for name in self._texts:
            if name not in known and name not in _OF_FORMAT:
                raise not_supported(f"the parameter '{name[:40]}' is not supported", name[:40])

    def all(self, name: str) -> list[str]:
        """Returns the texts that were given for a name."""
        return self._texts.get(name, [])

    def optional(self, name: str) -> Optional[str]:
        """Returns the text of a parameter that may be left out. An empty text counts as none, and equal ones as one."""
        texts = self._texts.get(name)
        if not texts:
            return None
        if len(texts) > 1 and len(set(texts)) > 1:
            raise invalid(f"the parameter '{name}' is given {len(texts)} times", name)
        return texts[0] or None

    def text(self, name: str) -> str:
        """Returns the text of a parameter that must be given."""
        text = self.optional(name)
        if text is None:
            raise required(name)
        return text

    def number(self, name: str, default: int) -> int:
        """Returns a number from 0 to the greatest integer of FHIR."""
        text = self.optional(name)
        if text is None:
            return default
        if not re.fullmatch("[0-9]{1,10}", text) or int(text) > _MOST_INTEGER:
            raise invalid(f"'{name}' is no whole number from 0 to {_MOST_INTEGER}: {text[:40]!r}", name)
        return int(text)

    def check_constant(self, name: str, wanted: str) -> None:
        """Raises a Problem for a parameter that is given with another value than this one."""
        if self.optional(name) not in (None, wanted):
            raise not_supported(f"the parameter '{name}' is supported as '{wanted}' alone", name)


def from_query(query: str) -> list[tuple[str, str]]:
    """Returns the parameters of a query string."""
    if len(query) > MOST_QUERY:
        raise too_long(f"the query has {len(query)} bytes, and the limit is {MOST_QUERY}")
    if not query:
        return []
    try:
        return urllib.parse.parse_qsl(
            query, keep_blank_values=True, strict_parsing=True, errors="strict", max_num_fields=_MOST_FIELDS
        )
    except ValueError:
        raise invalid("the query is malformed, not UTF-8, or has too many parameters") from None


def from_body(environ: dict[str, Any]) -> list[tuple[str, str]]:
    """Returns the parameters of a posted Parameters resource."""
    kind = environ.get("CONTENT_TYPE", "").partition(";")[0].strip().lower()
    if kind not in ("application/fhir+json", "application/json"):
        raise Problem(415, "not-supported", "a body is application/fhir+json")
    length = environ.get("CONTENT_LENGTH") or ""
    if not re.fullmatch("[0-9]{1,18}", length):
        raise Problem(411, "required", "Content-Length is missing")
    if int(length) > MOST_BODY:
        raise too_long(f"the body has {int(length)} bytes, and the limit is {MOST_BODY}")
    try:
        resource = json.loads(environ["wsgi.input"].read(int(length)))
    except OSError:
        raise invalid("the body did not arrive") from None
    except (ValueError, RecursionError):
        raise invalid("the body is no JSON") from None
    return _pairs(resource)


def _pairs(resource: Any) -> list[tuple[str, str]]:
    """Returns the names and texts of a Parameters resource."""
    if not isinstance(resource, dict) or resource.get("resourceType") != "Parameters":
        raise invalid("the body is no Parameters resource")
    parameters = resource.get("parameter", [])
    if not isinstance(parameters, list) or len(parameters) > _MOST_FIELDS:
        raise invalid(f"'parameter' is no list of {_MOST_FIELDS} parameters at most")
    return [pair for parameter in parameters for pair in _pairs_of(parameter)]


def _pairs_of(parameter: Any) -> list[tuple[str, str]]:
    """Returns the names and texts of one parameter. A coding has several: `coding` gives `system`, `version`, `code`
    and `display`, and `codingA` gives `codeA` in place of `code`."""
    name = parameter.get("name") if isinstance(parameter, dict) else None
    if not isinstance(name, str):
        raise invalid("a parameter has a 'name'")
    values = [value for key, value in parameter.items() if key.startswith("value")]
    if len(values) != 1:
        raise invalid("a parameter has one 'value[x]'")
    value = values[0]
    if isinstance(value, bool):
        return [(name, "true" if value else "false")]
    if isinstance(value, (str, int)):
        return [(name, str(value))]
    if name in ("coding", "codingA", "codingB") and isinstance(value, dict):
        return _pairs_of_coding(name, value)
    raise not_supported(f"the parameter '{name[:40]}' has a value that is not supported", name[:40])


def _pairs_of_coding(name: str, coding: Json) -> list[tuple[str, str]]:
    pairs = []
    for key in ("system", "version", "code", "display"):
        text = coding.get(key)
        if text is None:
            continue
        if not isinstance(text, str):
            raise invalid(f"'{key}' of a coding is no text", name)
        pairs.append((key + name[len("coding") :] if key == "code" else key, text))
    return pairs


def _check_encodable(name: str, text: str) -> None:
    """Raises a Problem for half a character, which JSON can spell."""
    try:
        name.encode(), text.encode()
    except UnicodeEncodeError:
        raise invalid("a parameter is no Unicode text") from None
