"""The settings of the service, read from the environment."""
from __future__ import annotations

import os
from dataclasses import dataclass
from typing import Mapping, Optional

# The code system of all codes, as FHIR names it.
SNOMED_CT = "http://snomed.info/sct"

# The most bytes of a constraint, of a body and of a query string.
MOST_CONSTRAINT, MOST_BODY, MOST_QUERY = 8 << 10, 64 << 10, 64 << 10

# The concepts of a page where `count` is left out, and the most that a page has.
PAGE, MOST_PAGE = 100, 10_000

# A filter whose words more names have is refused.
MOST_FOUND = 50_000


class Unset(Exception):
    """A variable of the environment is missing or has no such value."""


@dataclass(frozen=True)
class Settings:
    """`version` is the version URI of the release. `limit` is the most items that a plan may visit, and `seconds`
    the time limit of a request. `names` is the path of the file of names, or None for a temporary one in each
    process."""

    folders: tuple[str, ...]
    program: Optional[str] = None
    language: str = "en"
    version: Optional[str] = None
    limit: int = 10**8
    seconds: float = 2.0
    names: Optional[str] = None


def from_environment(environment: Mapping[str, str]) -> Settings:
    """Reads RELEASE, HOSECRAG, NAME_LANGUAGE, VERSION, LIMIT, SECONDS and NAMES."""
    folders = tuple(folder for folder in environment.get("RELEASE", "").split(os.pathsep) if folder)
    if not folders:
        raise Unset(f"RELEASE names the folders of the release, with {os.pathsep!r} between them")
    try:
        limit, seconds = int(environment.get("LIMIT") or 10**8), float(environment.get("SECONDS") or 2)
    except ValueError:
        raise Unset("LIMIT is a whole number, and SECONDS a number") from None
    if not (0 <= limit < 1 << 64 and 0 < seconds < 3600):
        raise Unset("LIMIT is less than 2^64, and SECONDS is from 0 to 3600")
    return Settings(
        folders,
        environment.get("HOSECRAG") or None,
        environment.get("NAME_LANGUAGE") or "en",
        environment.get("VERSION") or None,
        limit,
        seconds,
        environment.get("NAMES") or None,
    )
