"""What the service says of itself at `metadata`."""
from __future__ import annotations

from parameters import Parameters
from problems import Json
from settings import SNOMED_CT, Settings
from worker import Worker

# When the statements were last changed.
_DATE = "2026-11-30"

_NAME = "Hosecrag"
_DESCRIPTION = "SNOMED CT by expression constraints"

_OPERATIONS = {"ValueSet": ("expand", "validate-code"), "CodeSystem": ("lookup", "subsumes", "validate-code")}


def metadata(worker: Worker, settings: Settings, asked: Parameters) -> Json:
    """`metadata`: the CapabilityStatement, or the TerminologyCapabilities if `mode` is `terminology`."""
    asked.check_names(("mode",))
    return _terminology(settings) if asked.optional("mode") == "terminology" else _statement()


def _statement() -> Json:
    return {
        "resourceType": "CapabilityStatement",
        **_about(),
        "fhirVersion": "4.0.1",
        "format": ["application/fhir+json", "json"],
        "rest": [{"mode": "server", "resource": [_resource(kind) for kind in _OPERATIONS]}],
    }


def _resource(kind: str) -> Json:
    url = "http://hl7.org/fhir/OperationDefinition"
    return {"type": kind, "operation": [{"name": it, "definition": f"{url}/{kind}-{it}"} for it in _OPERATIONS[kind]]}


def _terminology(settings: Settings) -> Json:
    system: Json = {"uri": SNOMED_CT, "subsumption": True}
    if settings.version is not None:
        system["version"] = [{"code": settings.version, "isDefault": True, "compositional": False}]
    return {
        "resourceType": "TerminologyCapabilities",
        **_about(),
        "codeSystem": [system],
        "expansion": {
            "hierarchical": False,
            "paging": True,
            "incomplete": False,
            "parameter": [{"name": it} for it in ("url", "count", "offset", "filter", "displayLanguage")],
            "textFilter": "A name passes if each word of the filter begins a word of it, in any order.",
        },
        "codeSearch": "explicit",
        "validateCode": {"translations": False},
    }


def _about() -> Json:
    return {
        "status": "active",
        "date": _DATE,
        "kind": "instance",
        "software": {"name": _NAME},
        "implementation": {"description": _DESCRIPTION},
    }
