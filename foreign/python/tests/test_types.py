#!/usr/bin/env python3
"""Tests the type hints with mypy: test_types.py [PYTHON].

mypy reads the package that PYTHON has installed, or the sources of the package if no PYTHON is passed. In strict mode
it has to accept the package, the script that makes its bindings, and `right_calls.py`. It has to refuse each line of
`wrong_calls.py` that is marked, and no other line. The status is 1 if it does not.
"""

import os
import re
import subprocess
import sys
import tempfile
from pathlib import Path

HERE = Path(__file__).resolve().parent
SOURCES = HERE.parent / "src"
SCRIPT = HERE.parents[1] / "bindings.py"
REPORT = re.compile(r"^(?:.*/)?wrong_calls\.py:(\d+): error: (.*)$")
# The codes of mypy for a wrong argument or a wrong use of a result. Which of them a call has depends on the version.
CODES = ("arg-type", "assignment", "call-arg", "call-overload", "list-item", "misc", "type-var", "operator", "index")
CODES += ("attr-defined", "comparison-overlap", "func-returns-value", "return-value", "unused-coroutine")


def run(folder: str, *words: str) -> tuple[int, str]:
    """Runs mypy in strict mode, in an empty folder.

    Returns:
        The status, and the output.
    """
    python = [] if len(sys.argv) == 1 else ["--python-executable", os.path.abspath(sys.argv[1])]
    path = {"MYPYPATH": str(SOURCES)} if len(sys.argv) == 1 else {}
    command = ["mypy", "--strict", "--no-error-summary", "--hide-error-context", "--cache-dir", f"{folder}/cache"]
    environment = {name: value for name, value in os.environ.items() if name != "MYPYPATH"} | path
    done = subprocess.run([*command, *python, *words], cwd=folder, env=environment, capture_output=True, text=True)
    return done.returncode, done.stdout + done.stderr


def copy_of(name: str, folder: str) -> str:
    """Copies a file of this folder, so that mypy does not find the package beside the file. Returns the copy."""
    copy = Path(folder) / name
    copy.write_text((HERE / name).read_text())
    return str(copy)


def faults(folder: str) -> list[str]:
    """Returns what mypy accepts or refuses in another way than it has to."""
    found = []
    for words in (["-p", "pigyelund"], [str(SCRIPT)], [copy_of("right_calls.py", folder)]):
        status, text = run(folder, *words)
        if status:
            found.append(f"mypy refuses {' '.join(words)}: {text}")
    lines = (HERE / "wrong_calls.py").read_text().splitlines()
    marked = {at for at, line in enumerate(lines, 1) if line.endswith("  # refused")}
    _, text = run(folder, copy_of("wrong_calls.py", folder))
    reports = {int(it[1]): it[2] for line in text.splitlines() if (it := REPORT.match(line))}
    for at in sorted(marked | reports.keys()):
        report = reports.get(at, "no error")
        if at not in marked or not report.endswith(tuple(f"[{code}]" for code in CODES)):
            found.append(f"wrong_calls.py:{at}: mypy reports: {report}: {lines[at - 1]}")
    if not marked:
        found.append("wrong_calls.py has no marks")
    print(f"types: {len(marked)} wrong calls, {len(found)} faults")
    return found


def main() -> int:
    """Runs the test and prints the faults."""
    with tempfile.TemporaryDirectory() as folder:
        found = faults(folder)
    for fault in found:
        print(fault)
    return 1 if found else 0


if __name__ == "__main__":
    sys.exit(main())
