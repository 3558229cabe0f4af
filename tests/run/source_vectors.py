#!/usr/bin/env python3
"""source_vectors.py [--write]: compares vectors/ with what the stored rows and tests/reference make, or writes it.

Each flag and each fault has at least ten cases. The status is 1 if a file differs, or if a flag or a fault has too few
cases. It is also 1 if a stored answer and the reference differ.
"""

import difflib
import sys
from pathlib import Path

from top import TOP
from blocks import told
from vector_sources import der_cases, file_cases, origin_cases, schemas, set_cases, text_cases
from vector_sources.cases import Difference, VectorFile

VECTORS = TOP / "vectors"
SHOWN = 10
MAKERS = (der_cases, text_cases, set_cases, origin_cases, file_cases)


def made() -> list[VectorFile]:
    """Returns all files."""
    return [file for maker in MAKERS for file in maker.files()]


def texts_of(files: list[VectorFile]) -> dict[Path, str]:
    """Returns the text of each file of vectors/ that this script makes."""
    texts = {VECTORS / f"{it.name}.json": it.text() for it in files}
    return texts | {VECTORS / "schemas" / f"{it.name}.json": schemas.text_of(it) for it in files}


def differences(path: Path, text: str) -> list[str]:
    """Returns the first lines of a file that differ."""
    before = path.read_text(encoding="utf-8") if path.is_file() else ""
    if before == text:
        return []
    compared = difflib.unified_diff(before.split("\n"), text.split("\n"), "stored", "made", lineterm="", n=0)
    return [f"{path.relative_to(TOP)} is not what the rows and the reference make:", *list(compared)[2 : 2 + SHOWN]]


def main(words: list[str]) -> int:
    """Writes the files, or compares them."""
    try:
        files = made()
        lacking = [it for file in files for it in file.lacking()]
        texts = texts_of(files)
    except Difference as fault:
        print(f"vectors: {fault}")
        return 1
    stale = sorted({*VECTORS.glob("*.json"), *VECTORS.glob("schemas/*.json")} - texts.keys())
    found = [f"{it.relative_to(TOP)} is made by nothing" for it in stale]
    for path, text in texts.items():
        if words == ["--write"]:
            path.write_text(text, encoding="utf-8")
        found += differences(path, text)
    count, size = sum(len(it.cases) for it in files), sum(len(it.encode()) for it in texts.values())
    differ = sum(1 for it in found if it.startswith("vectors/"))
    counts = f"{len(files)} files, {count} cases, {size} octets, {differ} differ, {len(lacking)} counts too low"
    return told((it[:400] for it in (*lacking, *found)), f"vectors: {counts}")


if __name__ == "__main__":
    sys.exit(main(sys.argv[1:]))
