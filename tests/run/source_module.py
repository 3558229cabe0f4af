#!/usr/bin/env python3
"""source_module.py: finds a web/module.js whose octets and verdict are not in docs/VERDICTS, or with other exports.

The exports are the calls of foreign/c/exports.map, memory, malloc and free. The status is 1 if there is a finding.
"""

import base64
import hashlib
import json
import re
import sys
from collections.abc import Iterator

from top import TOP
from blocks import told


def number(octets: bytes, at: int) -> tuple[int, int]:
    """Returns a number in LEB128, and the index after it."""
    end = next(it for it in range(at, len(octets)) if octets[it] < 128) + 1
    return sum((it & 127) << 7 * place for place, it in enumerate(octets[at:end])), end


def exports(octets: bytes) -> Iterator[str]:
    """Yields the names of the exports of a module, and a text if it has imports."""
    at = 8
    while at < len(octets):
        kind, (size, start) = octets[at], number(octets, at + 1)
        count, place = number(octets, start)
        for _ in range({2: 1, 7: count}.get(kind, 0)):
            length, first = number(octets, place)
            yield octets[first : first + length].decode() if kind == 7 else "imports"
            place = number(octets, first + length + 1)[1]
        at = start + size


def findings() -> Iterator[str]:
    """Yields what differs."""
    module = json.loads(re.findall(r"= (\{.*\});\n\Z", (TOP / "web/module.js").read_text(), re.DOTALL)[0])
    octets = base64.b64decode(module["base64"], validate=True)
    calls = re.findall(r"^ +(pigy_\w+);", (TOP / "foreign/c/exports.map").read_text(), re.MULTILINE)
    if sorted(exports(octets)) != sorted([*calls, "free", "malloc", "memory"]):
        yield "its exports are not the calls of foreign/c/exports.map, memory, malloc and free"
    line = f"web/module.js {hashlib.sha256(octets).hexdigest()} {module['verdict']}"
    if line not in (TOP / "docs/VERDICTS").read_text().splitlines() or " logic=proved " not in line:
        yield f"docs/VERDICTS does not have the line: {line}"


if __name__ == "__main__":
    sys.exit(told((f"web/module.js: {it}" for it in findings()), "module.js: {} findings"))
