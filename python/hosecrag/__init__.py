"""Expression constraints over a SNOMED CT release, answered by the program `hosecrag`.

    from hosecrag import Hosecrag

    with Hosecrag("SnomedCT_Edition/Snapshot", "SnomedCT_Extension/Snapshot", lang="en") as engine:
        for concept, name in engine.expand("<<404684003 |Clinical finding|", first=20):
            ...
        engine.count("<100005"), engine.is_member(101009, "<100005:{104001=*}"), engine.describe(101009)

A constraint is a text of the Expression Constraint Language 2.2 in brief syntax, of one line or of several.
"""
from .answers import (
    Attribute,
    Concept,
    Description,
    Expansion,
    Fault,
    NoIdentifier,
    Node,
    Plan,
    Refused,
    ReleaseRefused,
    TooCostly,
)
from .pool import Pool
from .queries import Queries
from .single import Hosecrag

__all__ = [
    "Attribute",
    "Concept",
    "Description",
    "Expansion",
    "Fault",
    "Hosecrag",
    "NoIdentifier",
    "Node",
    "Plan",
    "Pool",
    "Queries",
    "Refused",
    "ReleaseRefused",
    "TooCostly",
]
