#!/usr/bin/env python3
"""program_help.py: compares the help of a script with the help of its program, with its manual page and its statuses.

It also shows that `./respath` and `./origins` answer help, version and an unknown option at once, without a build, and
runs the examples of the manual pages.

An entry of a help is a line with two spaces, a term, two or more spaces and its description. The description may
continue on the next lines. The manual page has to contain the description of each entry word for word. A program that
is not built is left out by name. The status is 1 if something differs.
"""

import os
import re
import shutil
import subprocess
import sys
import tempfile
from collections.abc import Iterator
from pathlib import Path

from top import TOP
from blocks import Report, examples_of, manual, program, run, write_script

SECONDS = 2  # a build takes longer, also where the machine is busy
# The tools of the scripts, without rt.
TOOLS = "awk cat cut date dirname find git grep head readlink rm sed sha256sum tr".split()
# The program whose texts are those of the script.
PROGRAMS = {"respath": "respath_program", "origins": "origins"}
# What the scripts refuse before a build.
REFUSED = {"respath": (["--strange"], ["norm as 1"]), "origins": (["--strange"], ["vrps", "--slur", "file"])}
# For each status: a word of its entry in the help, and a command that ends with it.
STATUSES = {
    "respath": (
        ("answered", "echo norm as x | respath"), ("read", "respath none"), ("usage", "respath --strange"),
        ("--check", "echo norm as x | respath --check"),
    ),
    "origins": (
        ("answered", "echo 192.0.2.0/24 | origins vrps"), ("read", "origins none"), ("usage", "origins --strange"),
        ("--check", "echo 192.0.2.0/24 | origins --check vrps"),
    ),
}  # fmt: skip


def entries(text: str) -> dict[str, str]:
    """Returns the terms of a help, each with its description."""
    found: dict[str, str] = {}
    term, column = "", 0
    for line in text.splitlines():
        line = re.sub(r"^STEP(?=  )", "    ", line)  # its entries begin on its own line
        start = re.match(r"( *)(\S.*?)  +(?=\S)", line)
        if start and len(start[1]) in (0, 2, 6):
            term, column = start[2], start.end()
            found[term] = line[column:]
        elif term and line.startswith(" " * 5) and line.strip():
            found[term] += " " + line.strip()
        else:
            term = ""
    return found


def asked(name: str, *words: str) -> tuple[int, str, float]:
    """Runs a script with no rt on the PATH. Returns its status, its output and its processor seconds."""
    before = os.times()
    with tempfile.TemporaryDirectory() as tools:
        for tool in TOOLS:
            if found := shutil.which(tool):
                os.symlink(found, f"{tools}/{tool}")
        ran = subprocess.run(
            ["/bin/sh", TOP / name, *words], env=os.environ | {"PATH": tools}, stdin=subprocess.DEVNULL,
            stdout=subprocess.PIPE, stderr=subprocess.STDOUT, text=True, timeout=60,
        )  # fmt: skip
    after = os.times()
    took = after.children_user + after.children_system - before.children_user - before.children_system
    return ran.returncode, ran.stdout, took


def faults_of(name: str) -> Iterator[str]:
    """Yields the faults in the texts of a script."""
    page, said = manual(f"docs/{name}.1"), entries(asked(name, "--help")[1].partition("\nOptions of the script")[0])
    if len(said) < 8:
        yield f"{name} --help has {len(said)} entries: {', '.join(said)}"
    for term, description in said.items():
        if " ".join(description.replace('"', "").split()) not in page:
            yield f"docs/{name}.1 does not say of {term}: {description}"
    for status, (word, _) in enumerate(STATUSES[name]):
        if word not in said.get(str(status), ""):
            yield f"{name} --help does not say {word!r} of status {status}"
    for words, wanted in ((["--help"], 0), (["-h"], 0), (["--version"], 0), *((it, 2) for it in REFUSED[name])):
        status, text, took = asked(name, *words)
        what = f"{name} {' '.join(words)}"
        if status != wanted or not text:
            yield f"{what}: status {status} in place of {wanted}: {text}"
        if took > SECONDS:
            yield f"{what}: {took:.2f} seconds of the processor, more than {SECONDS}"


def faults_of_program(name: str, folder: Path) -> Iterator[str]:
    """Yields the differences between the help of a script and that of its program, and statuses that differ."""
    helped, own = asked(name, "--help")[1], {"PATH": f"{folder}:{os.environ['PATH']}"}
    usage, _, more = run(f"{name} --help", folder, **own).stdout.partition("\n\n")
    if more.rstrip("\n") not in helped or not helped.startswith(usage):
        yield f"./{name} --help does not have the help of the program"
    for status, (_, command) in enumerate(STATUSES[name]):
        if (found := run(command, folder, **own).returncode) != status:
            yield f"{command}: status {found} in place of {status}"


def main() -> int:
    """Compares the texts of both scripts, and runs the examples of the manual pages by the names of a release."""
    report = Report()
    for name, crate in PROGRAMS.items():
        report.add(f"the texts of ./{name}", faults_of(name))
        if not program(crate).is_file():
            report.leave_out(f"the help of the program {crate}", "it is not built")
            continue
        with tempfile.TemporaryDirectory() as temporary:
            folder, block = Path(temporary), examples_of(f"docs/{name}.1")
            write_script(folder / name, f'exec "{program(crate)}" "$@"')
            ran = run(block.text, folder, "-c", PATH=f"{folder}:{os.environ['PATH']}")
            report.compare(f"the examples of {block.place}", block.shown or "an example", ran.stdout, ran.stderr)
            (folder / "vrps").write_text("AS1,10.0.0.0/8,8\n")
            report.add(f"the program {crate}", faults_of_program(name, folder))
    return report.status()


if __name__ == "__main__":
    sys.exit(main())
