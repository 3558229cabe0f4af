#!/usr/bin/env python3
"""of_edits.py: tests tests/run/edits.py in a small repository, with a stub of `rt`.

The stub prints what `rt ci` prints. It takes the text for each mutation from the file of the mutation. A mutation that
is still proved, that cannot be applied or that was not tried must never count as refused. The status is 1 if a run
differs.
"""

import shutil
import subprocess
import sys
import tempfile
from collections.abc import Iterator
from pathlib import Path

from top import TOP
from blocks import told
from copies import said_by, written

# Each call adds a line to the file `calls`: the crate, and the number of its mutations in the copy.
STUB = r"""#!/bin/sh
echo "$2($(ls crates/"$2"/must-fail | wc -l))" >>"${0%/*}/calls"
if [ -n "$STUB_UNPROVED" ]; then
    printf 'rt: %s NOT PROVED\nrt: small NOT PROVED: its library low failed\n' "$STUB_UNPROVED"
    exit 1
fi
echo "rt: $2: trying its must-fail edits (1)"
for edit in crates/"$2"/must-fail/*; do
    printf 'rt: must-fail %s/%s: ' "$2" "${edit##*/}"
    cat "$edit"
done
echo "2 passed, 1 failed ($2 and the crates below alone: not the gate)"
exit 1
"""
GOAL = "note: src/a.rt:7:5: it is not proved that what the function ensures holds when it returns (`returns-clause-x`)"
REFUSED = "refused, as it must be"
FOR_NAME = " (only because a proof file names what the edit took away, so this says little of the contract)"
BY_LIMIT = " (only by a limit of the prover, which gave no verdict, so this says less of the contract)"
# The name of a mutation, what rt prints of it, and the beginning of what the script prints.
RESULTS = (
    ("edits/goal", f"{REFUSED}: {GOAL}", f"refused at a goal: {GOAL}"),
    ("must-fail/bare", REFUSED, "refused at a goal: "),
    ("edits/limit", f"{REFUSED}{BY_LIMIT}: no stack", "refused by a limit alone: no stack"),
    ("must-fail/lost", f"{REFUSED}{FOR_NAME}: a name", "refused for a name alone: a name"),
    ("edits/proved", "NOT REFUSED: the crate is still proved", "PROVED: the crate is still proved"),
    ("edits/nowhere", "BAD EDIT: an 'old:' text is there 0 times", "BAD EDIT: an 'old:' text is there 0 times"),
    ("must-fail/killed", "NOT TRIED: its check was killed", "NOT TRIED: its check was killed"),
    ("edits/unknown", f"{REFUSED} (only for the moon): moon", "NOT TRIED: "),
)
ALL = "5 refused (3 at a goal, 1 by a limit alone, 1 for a name alone), 4 not"
LOW = "1 refused (1 at a goal), 0 not"
# Words, a file that changes, what is not proved, the calls of rt, a part of the output, and the last line.
RUNS = (
    ((), None, "", "", "trying the mutations of 0 crates", "0 refused, 0 not"),
    ((), "crates/low/must-fail/new.edit", "", "low(2)", "new.edit: refused at", "2 refused (2 at a goal), 0 not"),
    ((), "crates/low/src/lib.rt", "", "low(1) small(8)", "", ALL),
    ((), "crates/other/proofs/new.antt", "", "", "", "0 refused, 0 not"),
    (("--all",), None, "", "low(1) small(8)", "trying the mutations of 2 crates: low small", ALL),
    (("low", "small/bare"), None, "", "low(1) small(1)", "", "2 refused (2 at a goal), 0 not"),
    (("small/goal",), None, "low", "small(1)", "goal.edit: NOT TRIED: rt ci did not prove low\n", "0 refused, 1 not"),
    (("small/moon",), None, "", "", "no crate, and no mutation of a crate: small/moon", ""),
    (("low",), "crates/low/must-fail/turned.edit", "", "", "low has two mutations with one name: turned.edit", ""),
)


def git(copy: Path, *words: str) -> None:
    """Runs git in the repository."""
    own = ["-c", "user.name=of_edits", "-c", "user.email=of_edits@localhost", "-c", "commit.gpgSign=false"]
    subprocess.run(["git", *own, *words], cwd=copy, capture_output=True, check=True)


def made(copy: Path) -> None:
    """Makes a repository with the crates `low`, `small`, which depends on `low`, and `other`. The stub is beside it."""
    scripts = [f"tests/{it}.py" for it in ("lib/blocks", "run/edits", "lib/groups", "run/source_edits", "run/top")]
    files = {it: (TOP / it).read_text() for it in scripts}
    files |= {f"crates/small/{name}.edit": f"{said}\n" for name, said, _ in RESULTS}
    files |= {f"crates/{name}/src/lib.rt": "right\n" for name in ("low", "small", "other")}
    files |= {"crates/low/edits/turned.edit": f"{REFUSED}: {GOAL}\n"}
    files |= {"crates.txt": "#: all\nsmall: low json\nlow:\nother:\n", "HANDLES": "", ".gitignore": "out\n"}
    written(copy, files)
    written(copy.parent, {"bin/rt": STUB})
    git(copy, "init", "-q", "-b", "main")
    git(copy, "add", "-A")
    git(copy, "commit", "-q", "-m", "crates")


def run(copy: Path, *words: str, **variables: str) -> tuple[int, str, str]:
    """Runs tests/run/edits.py. Returns its status, its output and its calls of rt."""
    calls = copy.parent / "bin" / "calls"
    calls.unlink(missing_ok=True)
    status, said = said_by(("tests/run/edits.py", *words), copy, copy.parent / "bin", **variables)
    return status, said, " ".join(calls.read_text().split()) if calls.exists() else ""


def faults(copy: Path) -> Iterator[str]:
    """Yields each result and each run that differs."""
    for name, _, line in RESULTS:
        status, said, _ = run(copy, f"small/{Path(name).stem}")
        if status != int(not line.startswith("refused ")) or f"\nsmall/{name}.edit: {line}" not in said:
            yield f"FAILED  {name}: status {status}: {said}"
    for words, file, unproved, crates, part, last in RUNS:
        if file:
            written(copy, {file: f"{REFUSED}: {GOAL}; the facts known there\n"})
        status, said, called = run(copy, *words, STUB_UNPROVED=unproved)
        git(copy, "checkout", "-q", "--", "crates")
        git(copy, "clean", "-fdq", "crates")
        right = (0 if last.endswith(" 0 not") else 1, crates, True)
        if (status, called, part in said and said.endswith(f"{last}\n")) != right:
            yield f"FAILED  {words} {file} {unproved}: status {status}, rt for {called}: {said}"


def main() -> int:
    """Tries all runs."""
    if not shutil.which("git"):
        print("left out: tests/run/of_edits.py needs git")
        return 0
    with tempfile.TemporaryDirectory(prefix="of-edits-") as name:
        copy = Path(name, "copy")
        made(copy)
        return told(faults(copy), f"{len(RESULTS) + len(RUNS)} runs of tests/run/edits.py: {{}} wrong")


if __name__ == "__main__":
    sys.exit(main())
