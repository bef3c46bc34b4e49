"""The implicit value sets of SNOMED CT, by their URLs (FHIR R4, "Using SNOMED CT with FHIR")."""
from __future__ import annotations

import re
import urllib.parse
from typing import Optional

from problems import invalid, not_found, too_long
from settings import MOST_CONSTRAINT

# The concept whose descendants are the reference sets.
_REFERENCE_SETS = "<900000000000455006"

_IDENTIFIER = "[1-9][0-9]{5,17}"
_BASE = re.compile(rf"http://snomed\.info/sct(/{_IDENTIFIER}(/version/[0-9]{{8}})?)?")

# A text that is percent-encoded has no blank, no bracket of the kinds < > { }, no bar and no caret.
_ENCODED = re.compile(r"([A-Za-z0-9\-_.!~*'();,/?:@&=+$#\[\]]|%[0-9A-Fa-f]{2})*")


def is_identifier(text: str) -> bool:
    """Returns whether a text has the form of an identifier: 6 to 18 ASCII digits, and no zero in front."""
    return re.fullmatch(_IDENTIFIER, text) is not None


def constraint_of(url: str, version: Optional[str]) -> str:
    """Returns the constraint that an implicit value set stands for. All of the URL after `?fhir_vs=` names it, `|` and
    `#` too. A URL that names an edition or a version must name that of the release."""
    base, _, query = url.partition("?")
    if not _BASE.fullmatch(base):
        raise not_found(f"unknown value set: {url[:200]}", "url")
    _check_version(base, version)
    if query in ("fhir_vs", "fhir_vs="):
        return "*"
    name, _, form = query.partition("=")
    kind, slash, argument = form.partition("/")
    if name == "fhir_vs" and kind == "ecl" and slash:
        return _constraint(argument)
    if name == "fhir_vs" and form == "refset":
        return _REFERENCE_SETS
    if name == "fhir_vs" and kind in ("isa", "refset") and is_identifier(argument):
        return f"<<{argument}" if kind == "isa" else f"^{argument}"
    raise not_found(f"unknown value set: {url[:200]}", "url")


def _check_version(base: str, version: Optional[str]) -> None:
    """Raises a Problem for a base that names another edition or version than that of the release."""
    if "/sct/" not in base:
        return
    if version is None:
        raise not_found("the service is not told which version the release is, so the URL may name none", "url")
    if not f"{version}/".startswith(f"{base}/"):
        raise not_found(f"the release is {version}, not {base}", "url")


def _constraint(text: str) -> str:
    """Returns the constraint of a URL. Some clients' requests have it percent-encoded once more, and others' not.
    Percent signs mean nothing in a constraint outside terms and comments."""
    if "%" in text and _ENCODED.fullmatch(text):
        try:
            text = urllib.parse.unquote(text, errors="strict")
        except UnicodeDecodeError:
            raise invalid("the percent-encoded constraint is not UTF-8", "url") from None
    length = len(text.encode())
    if length > MOST_CONSTRAINT:
        raise too_long(f"the constraint has {length} bytes, and the limit is {MOST_CONSTRAINT}", "url")
    return text
