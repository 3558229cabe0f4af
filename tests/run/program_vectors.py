#!/usr/bin/env python3
"""program_vectors.py [FILE]: validates vectors/, runs the examples of docs/CONFORMANCE.md, and asks the programs.

The programs are respath and origins. They are asked all cases, or with FILE only the cases of that file. Each case has
to agree. If UNPROVED is set, the programs have run-time checks and are slow. Then they are asked one of ten files of
VRPs. The status is 1 if a file is invalid, an example fails, or a case differs.
"""

import json
import os
import re
import shutil
import subprocess
import sys
import tempfile
from pathlib import Path

from top import TOP
from blocks import blocks_of

RUN = TOP / "vectors" / "run"
OF_DEBIAN = "/usr/bin/python3"
SKIPPED = 77
SHARE = "10"
# Stand-ins for a user's own readers of DER: one in Python, and one in C that refuses everything.
MINE = """from vector_sources import by_reference


def read_ip_blocks(octets):
    try:
        return by_reference.written_families(by_reference.families(octets))
    except by_reference.DerFault as fault:
        raise ValueError(fault)
"""
MINE_IN_C = """static int read_ip_blocks(const char *octets, char *canonical) {
    canonical[0] = '\\0';
    return octets[0] == '-';
}
"""


def python_with_jsonschema() -> str:
    """Returns a Python that has jsonschema, or this one."""
    there = [it for it in (sys.executable, OF_DEBIAN) if Path(it).exists()]
    asked = (it for it in there if not subprocess.run([it, "-c", "import jsonschema"], capture_output=True).returncode)
    return next(asked, sys.executable)


def example(kind: str) -> str:
    """Returns the example of a language on the page."""
    return next((it.text for it in blocks_of("docs/CONFORMANCE.md") if it.kind == kind), "")


def faults_of_examples(folder: Path) -> list[str]:
    """Returns the faults of the examples on the page."""
    (folder / "vectors").symlink_to(TOP / "vectors")
    (folder / "mine.py").write_text(MINE)
    (folder / "mine.h").write_text(MINE_IN_C)
    (folder / "mine.c").write_text(example("c"))
    env = os.environ | {"PYTHONPATH": f"{folder}:{TOP / 'tests'}", "PYTHONDONTWRITEBYTECODE": "1"}
    how = {"cwd": folder, "env": env, "stdout": subprocess.PIPE, "stderr": subprocess.STDOUT, "text": True}
    said = subprocess.run([sys.executable, "-c", example("python")], **how).stdout
    faults = [] if re.fullmatch(r"\d+ cases, 0 differ\n", said) else [f"the example in Python: {said[-400:]}"]
    if not shutil.which("cc"):
        print("left out: the example in C of docs/CONFORMANCE.md needs cc")
        return faults
    built = subprocess.run(["cc", "-Wall", "-Werror", "-o", "mine", "mine.c"], **how)
    cases = json.loads((TOP / "vectors/der_ip.json").read_text(encoding="utf-8"))["tests"]
    count = sum("Decision" not in it["flags"] for it in cases)
    words = [RUN / "compare.py", "--only", "der_ip", "--without", "Decision", "mine", "./mine"]
    said = built.stdout or subprocess.run(words, **how).stdout
    if not re.match(
        rf"mine: der_ip: {count} cases, \d+ agree, \d+ differ, 0 not applicable\n.*\bCanonical \d", said, re.DOTALL
    ):
        faults.append(f"the example in C: {said[-400:]}")
    return faults


def main(words: list[str]) -> int:
    """Validates the files, and asks the programs."""
    validated = subprocess.run([python_with_jsonschema(), RUN / "validate.py"], check=False).returncode
    with tempfile.TemporaryDirectory() as folder:
        faults = faults_of_examples(Path(folder))
    print("".join(f"{it}\n" for it in faults), end="")
    more = ["--every", SHARE] if os.environ.get("UNPROVED") else []
    more += ["--only", words[0]] if words else []
    asked = subprocess.run([sys.executable, RUN / "programs.py", "--show", *more], check=False).returncode
    if asked == SKIPPED:
        print("left out: the vectors were not asked: respath_program or origins is not built")
    elif more[:1] == ["--every"]:
        print(f"left out: {int(SHARE) - 1} of {SHARE} cases of each file that needs files of VRPs")
    return 1 if validated or faults or asked not in (0, SKIPPED) else 0


if __name__ == "__main__":
    sys.exit(main(sys.argv[1:]))
