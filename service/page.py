"""The page of the service, with the header that lets the browser run its own script and style, and nothing else."""
from __future__ import annotations

import base64
import hashlib
import re
from functools import lru_cache
from pathlib import Path

_FILE = Path(__file__).resolve().parent / "page.html"


@lru_cache(maxsize=None)
def read() -> tuple[bytes, str]:
    """Returns the page, and its Content-Security-Policy."""
    data = _FILE.read_bytes()
    policy = (
        "default-src 'none'; connect-src 'self'; img-src data:; base-uri 'none'; form-action 'none'; "
        f"frame-ancestors 'none'; script-src {_source(data, b'script')}; style-src {_source(data, b'style')}"
    )
    return data, policy


def _source(data: bytes, element: bytes) -> str:
    """Returns the hash of the one element of this name, as the policy spells it."""
    (text,) = re.findall(b"<%s>(.*?)</%s>" % (element, element), data, re.DOTALL)
    return f"'sha256-{base64.b64encode(hashlib.sha256(text).digest()).decode()}'"
