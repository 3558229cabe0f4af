"""The JSON Schema of each file of vectors/."""

import json
from typing import Any

from .cases import VectorFile

Schema = dict[str, Any]
TEXT: Schema = {"type": "string"}
HEX: Schema = {"type": "string", "pattern": "^([0-9a-f]{2})*$"}
HEX_OR_NULL: Schema = {"type": ["string", "null"], "pattern": "^([0-9a-f]{2})+$"}
TEXT_OR_NULL: Schema = {"type": ["string", "null"]}
NUMBER: Schema = {"type": "integer", "minimum": 0}
ASN: Schema = {"type": "integer", "minimum": 0, "maximum": 2**32 - 1}
PREFIX: Schema = {"type": "string", "pattern": "^[0-9a-f.:]+/[0-9]+$"}
TEXTS: Schema = {"type": "array", "items": TEXT}


def one_of(*values: str) -> Schema:
    """Returns the schema of one of some texts."""
    return {"enum": [*values]}


def record(members: dict[str, Schema]) -> Schema:
    """Returns the schema of an object with these members and no others."""
    return {"type": "object", "properties": members, "required": sorted(members), "additionalProperties": False}


VRPS: Schema = {
    "type": "array",
    "items": record({"asn": ASN, "maxLength": {"type": "integer", "minimum": 0, "maximum": 128}, "prefix": PREFIX}),
}
KIND = one_of("as", "v4", "v6")
FAULT: dict[str, Schema] = {"result": one_of("invalid"), "fault": TEXT, "reason": TEXT}
READ = one_of("canonical", "valid")
CLAIM: dict[str, Schema] = {"claim": TEXT, "octets": HEX_OR_NULL}


def of_results(*members: dict[str, Schema]) -> Schema:
    """Returns the schema of an expected answer in one of some forms."""
    return {"oneOf": [record(it) for it in members]}


# The schemas of the input and of the expected answer of each file.
INPUTS: dict[str, Schema] = {
    "der_as": record({"octets": HEX}),
    "der_ip": record({"octets": HEX}),
    "text_as": record({"text": TEXT}),
    "text_ip": record({"family": one_of("v4", "v6"), "text": TEXT}),
    "set_operations": record(
        {
            "kind": KIND,
            "left": TEXTS,
            "right": TEXTS,
            "operation": one_of("union", "intersection", "difference", "contains", "equal"),
        }
    ),
    "verify_path": record(
        {
            "anchor": record(CLAIM),
            "kind": KIND,
            "certificates": {"type": "array", "items": record(CLAIM | {"policy": one_of("refuse", "trim")})},
        }
    ),
    "prefix_cover": record({"blocks": TEXTS, "family": one_of("v4", "v6")}),
    "origin_validation": record({"asn": ASN, "prefix": PREFIX, "vrps": VRPS}),
    "vrp_updates": record({"table": VRPS, "announced": VRPS, "withdrawn": VRPS}),
    "vrp_files": {"oneOf": [record({"text": TEXT}), record({"octets": HEX})]},
}
EXPECTED: dict[str, Schema] = {
    "der_as": of_results({"result": READ, "text": TEXT, "canonical": HEX}, FAULT),
    "der_ip": of_results({"result": READ, "v4": TEXT_OR_NULL, "v6": TEXT_OR_NULL, "canonical": HEX}, FAULT),
    "text_as": of_results({"result": one_of("valid"), "text": TEXT}, FAULT),
    "text_ip": of_results({"result": one_of("valid"), "text": TEXT}, FAULT),
    "set_operations": of_results({"text": TEXT}, {"holds": {"type": "boolean"}}),
    "verify_path": of_results(
        {"result": one_of("valid"), "text": TEXT},
        {"result": one_of("invalid"), "certificate": NUMBER, "overclaimed": TEXT},
    ),
    "prefix_cover": record({"prefixes": {"type": "array", "items": PREFIX}}),
    "origin_validation": record({"validity": one_of("valid", "invalid", "not-found")}),
    "vrp_updates": of_results(
        {"result": one_of("valid"), "vrps": VRPS},
        {"result": one_of("invalid"), "errorCode": {"enum": [6, 7]}, "fault": TEXT, "index": NUMBER},
    ),
    "vrp_files": of_results({"result": one_of("valid"), "vrps": VRPS}, FAULT),
}


def note() -> Schema:
    """Returns the schema of the note of a flag."""
    found = record({"breaksRule": {"type": "boolean"}, "description": TEXT, "section": TEXT})
    found["properties"] = found["properties"] | {"link": TEXT}
    return found


def schema_of(file: VectorFile) -> Schema:
    """Returns the schema of a file."""
    case = record(
        {
            "comment": {"type": "string", "minLength": 1},
            "expected": EXPECTED[file.name],
            "flags": {"type": "array", "items": {"enum": sorted(file.flags)}, "minItems": 1, "uniqueItems": True},
            "input": INPUTS[file.name],
            "tcId": {"type": "string", "pattern": "^[0-9a-f]{12}$"},
        }
    )
    whole = record(
        {
            "header": TEXTS,
            "notes": record({name: note() for name in sorted(file.flags)}),
            "numberOfTests": NUMBER,
            "schema": {"const": f"schemas/{file.name}.json"},
            "subject": TEXT,
            "tests": {"type": "array", "items": case, "minItems": 1},
            "version": TEXT,
        }
    )
    return {"$schema": "https://json-schema.org/draft/2020-12/schema", "title": file.subject} | whole


def text_of(file: VectorFile) -> str:
    """Returns the schema as text."""
    return json.dumps(schema_of(file), indent=1, sort_keys=True, ensure_ascii=False) + "\n"
