#!/usr/bin/env python3
"""source_edits.py: finds edits in the folders `must-fail/` and `edits/` of the crates that cannot be applied.

It reads them with the kit's own reader, so each `old:` has to be in its file exactly once. It also checks that
`must-fail/` is small: at most thirty edits, in at most twelve libraries. Programs and static libraries may have no
edits there. It asks no prover; tests/run/edits.py does. The status is 1 if there is a fault.
"""

import importlib.machinery
import importlib.util
import re
import subprocess
import sys
from collections.abc import Iterator
from pathlib import Path

from top import TOP
from blocks import told

TRIED_BY_THE_KIT = "must-fail"
FOLDERS = (TRIED_BY_THE_KIT, "edits")
NAME = re.compile(r"\w[\w.-]*\.edit", re.ASCII)
MOST_EDITS, MOST_CRATES = 30, 12


def the_kit():
    """Returns the kit's own `rt`, which reads and judges edits."""
    page = subprocess.run(["rt", "doc"], capture_output=True, text=True, check=True).stdout.strip()
    loader = importlib.machinery.SourceFileLoader("rt", str(Path(page).parent / "bin" / "rt"))
    module = importlib.util.module_from_spec(importlib.util.spec_from_loader("rt", loader))
    loader.exec_module(module)
    return module


def edits_of(crate) -> list[Path]:
    """Returns the files in the two folders of a crate."""
    return [it for folder in FOLDERS for it in sorted(Path(crate.folder, folder).rglob("*"))]


def faults_of(kit, crate) -> Iterator[str]:
    """Yields the faults of the edits of a crate."""
    seen = set()
    for edit in edits_of(crate):
        name = edit.relative_to(TOP)
        if len(name.parts) != 4 or not NAME.fullmatch(edit.name):
            yield f"{name}: an edit stands right in its folder, and is called NAME.edit"
        elif edit.name in seen:
            yield f"{name}: {FOLDERS[0]}/ has an edit of this name"
        elif why := kit.read_edit(str(edit), crate.folder)[1]:
            yield f"{name}: {why}"
        seen.add(edit.name)


def faults_of_the_kits(crates) -> Iterator[str]:
    """Yields the faults in the number and the folders of the edits that the kit tries."""
    tried = [crate for crate in crates for edit in edits_of(crate) if edit.parent.name == TRIED_BY_THE_KIT]
    for crate in dict.fromkeys(tried):
        if crate.is_program or crate.is_static:
            yield f"crates/{crate.name}/{TRIED_BY_THE_KIT}: no library, so its edits stand in edits/"
    if len(tried) > MOST_EDITS or len({*tried}) > MOST_CRATES:
        found = f"{len(tried)} edits in {len({*tried})} crates"
        yield f"{TRIED_BY_THE_KIT}/ has {found}: at most {MOST_EDITS} in {MOST_CRATES}"


def main() -> int:
    kit = the_kit()
    crates = kit.rtlib.crates_below(str(TOP))
    faults = [it for crate in crates for it in faults_of(kit, crate)] + [*faults_of_the_kits(crates)]
    return told(faults, f"{sum(len(edits_of(it)) for it in crates)} edits: {{}} faults")


if __name__ == "__main__":
    sys.exit(main())
