#!/usr/bin/env python3
"""validate.py [FOLDER]: validates each file of vectors against its schema.

It uses jsonschema (the Debian package python3-jsonschema). Without this package it checks only objects, their members,
arrays and enums, and says so. In both cases it also compares the number of cases with `numberOfTests`, and searches for
a tcId that a file has twice. The status is 1 if a file is invalid."""

import json
import sys
from collections.abc import Iterator
from pathlib import Path
from typing import Any

try:
    import jsonschema
except ImportError:
    jsonschema = None

VECTORS = Path(__file__).resolve().parent.parent


def lacking(schema: dict[str, Any], value: Any, place: str) -> Iterator[str]:
    """What is wrong with the objects, their members, the arrays and the enums of a value, by a schema."""
    kind = schema.get("type")
    if "oneOf" in schema:
        if all([*lacking(it, value, place)] for it in schema["oneOf"]):
            yield f"{place}: has none of the forms"
    elif kind == "object":
        members = schema["properties"]
        if not isinstance(value, dict):
            yield f"{place}: no object"
            return
        yield from (f"{place}: no {it}" for it in schema["required"] if it not in value)
        yield from (f"{place}: has {it}" for it in value if it not in members)
        for name in value.keys() & members.keys():
            yield from lacking(members[name], value[name], f"{place}.{name}")
    elif kind == "array":
        if not isinstance(value, list):
            yield f"{place}: no array"
            return
        for at, it in enumerate(value):
            yield from lacking(schema["items"], it, f"{place}[{at}]")
    elif "enum" in schema and value not in schema["enum"]:
        yield f"{place}: {value!r}"


def faults(schema: dict[str, Any], value: Any) -> Iterator[str]:
    """What is wrong with a file."""
    if jsonschema is None:
        yield from lacking(schema, value, "$")
        return
    for found in jsonschema.Draft202012Validator(schema).iter_errors(value):
        yield f"{found.json_path}: {found.message[:200]}"


def faults_of(path: Path) -> Iterator[str]:
    """What is wrong with a file, with its schema, with its count and with its identifiers."""
    value = json.loads(path.read_text(encoding="utf-8"))
    schema = json.loads((path.parent / "schemas" / path.name).read_text(encoding="utf-8"))
    yield from faults(schema, value)
    tests = value.get("tests", [])
    if value.get("numberOfTests") != len(tests):
        yield f"$.numberOfTests: {value.get('numberOfTests')}, and there are {len(tests)}"
    if len({it.get("tcId") for it in tests}) < len(tests):
        yield "$.tests: two cases have the same tcId"


def main(words: list[str]) -> int:
    """Validates all files."""
    folder = Path(words[0]).resolve() if words else VECTORS
    count = wrong = 0
    for path in sorted(folder.glob("*.json")):
        found = list(faults_of(path))
        count, wrong = count + 1, wrong + bool(found)
        for it in found[:10]:
            print(f"{path.name}: {it}")
    without = "without python3-jsonschema (only objects, their members, arrays and enums)"
    how = "by jsonschema" if jsonschema else without
    print(f"schemas: {count} files validated {how}, {wrong} are invalid")
    return 1 if wrong or not count else 0


if __name__ == "__main__":
    sys.exit(main(sys.argv[1:]))
