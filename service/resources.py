"""Resources of FHIR R4, as JSON."""
from __future__ import annotations

import time
import uuid
from decimal import Decimal
from typing import Iterable, Optional, Union

from hosecrag import Attribute, Concept, Description, Plan

from problems import NAME, Json
from settings import SNOMED_CT

# The code of a property that has the attributes of one group: |Role group|.
GROUP = "609096000"

# A value of a parameter, by its type of FHIR.
Value = tuple[str, Union[str, bool, int, float]]


def parameter(name: str, value: Value) -> Json:
    """Returns a parameter, or a part of one."""
    return {"name": name, value[0]: value[1]}


def parameters(parts: Iterable[Json]) -> Json:
    return {"resourceType": "Parameters", "parameter": list(parts)}


def expansion(url: str, total: int, offset: int, echoed: list[Json], concepts: list[Concept]) -> Json:
    """Returns the ValueSet of a page of an expansion. A page without concepts has no `contains`."""
    found: Json = {
        "identifier": uuid.uuid4().urn,
        "timestamp": time.strftime("%Y-%m-%dT%H:%M:%SZ", time.gmtime()),
        "total": total,
        "offset": offset,
        "parameter": echoed,
    }
    if concepts:
        found["contains"] = [_contained(concept) for concept in concepts]
    return {"resourceType": "ValueSet", "url": url, "status": "active", "expansion": found}


def validation(result: bool, message: Optional[str] = None, display: Optional[str] = None) -> Json:
    """Returns what `$validate-code` answers."""
    parts = [parameter("result", ("valueBoolean", result))]
    if message is not None:
        parts.append(parameter("message", ("valueString", message)))
    if display is not None:
        parts.append(parameter("display", ("valueString", display)))
    return parameters(parts)


def looked_up(found: Description, version: Optional[str], wanted: list[str]) -> Json:
    """Returns what `$lookup` answers: all properties of a concept, or those that are wanted."""
    parts = [parameter("name", ("valueString", "SNOMED CT"))]
    if version is not None:
        parts.append(parameter("version", ("valueString", version)))
    identifier, name = found.concept
    parts.append(parameter("display", ("valueString", str(identifier) if name is None else name)))
    properties = [it for it in _properties(found) if not wanted or it["part"][0]["valueCode"] in wanted]
    return parameters(parts + properties)


def plan(found: Plan) -> Json:
    """Returns a plan: its bound, and its nodes, each before those below it."""
    return {"bound": found.bound, "nodes": [node._asdict() for node in found.nodes]}


def _contained(concept: Concept) -> Json:
    contained = {"system": SNOMED_CT, "code": str(concept.identifier)}
    if concept.name is not None:
        contained["display"] = concept.name
    return contained


def _properties(found: Description) -> list[Json]:
    """Returns the properties of a concept. Each group of attributes is one."""
    inactive = parameter("value", ("valueBoolean", found.state != "active"))
    properties = [_property("inactive", [inactive])]
    for code, concepts in (("parent", found.parents), ("child", found.children)):
        properties += [_property(code, _value(concept)) for concept in concepts]
    groups: dict[int, list[Json]] = {}
    for attribute in found.attributes:
        if attribute.group == 0:
            properties.append({"name": "property", "part": _attribute(attribute)})
        else:
            groups.setdefault(attribute.group, []).append({"name": "subproperty", "part": _attribute(attribute)})
    properties += [_property(GROUP, attributes) for attributes in groups.values()]
    return properties + [_property("refset", _value(concept)) for concept in found.reference_sets]


def _property(code: str, parts: list[Json]) -> Json:
    return {"name": "property", "part": [parameter("code", ("valueCode", code)), *parts]}


def _attribute(attribute: Attribute) -> list[Json]:
    """Returns the parts of an attribute. FHIR has no place for the name of a type: an extension of its code has it."""
    code = parameter("code", ("valueCode", str(attribute.type.identifier)))
    if attribute.type.name is not None:
        code["extension"] = [{"url": NAME, "valueString": attribute.type.name}]
    return [code, *_value(attribute.value)]


def _value(value: Union[Concept, Decimal, str]) -> list[Json]:
    """Returns the part of a value, and that of the name of a concept."""
    if isinstance(value, Decimal):
        return [parameter("value", _number(value))]
    if isinstance(value, str):
        return [parameter("value", ("valueString", value))]
    parts = [parameter("value", ("valueCode", str(value.identifier)))]
    if value.name is not None:
        parts.append(parameter("description", ("valueString", value.name)))
    return parts


def _number(value: Decimal) -> Value:
    """Returns a number of JSON, or the text of a number that would lose digits as one."""
    number = float(value)
    if Decimal(repr(number)) == value:
        return "valueDecimal", number
    return "valueString", f"{value:f}"
