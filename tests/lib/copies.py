"""Copies the repository, makes one thing wrong in the copy, and runs a test there.

The tests of the tests use this module: tests/run/of_tests.py and of_edits.py.
"""

import os
import shutil
import subprocess
from dataclasses import dataclass
from pathlib import Path

from top import TOP
from blocks import program


@dataclass(frozen=True)
class Case:
    """A change that makes a file wrong, the test that has to report it with these words, and the programs it needs."""

    test: str
    file: str
    old: str
    new: str
    said: str
    needs: tuple[str, ...] = ()


def built(name: str) -> Path:
    """Returns the path of a built program, from the top folder."""
    return program(name).relative_to(TOP)


def copied(to: Path, *programs: str) -> Path:
    """Copies the sources, and these programs as far as they are built. Returns the copy."""
    shutil.copytree(TOP, to, symlinks=True, ignore=shutil.ignore_patterns(".git", "out", "__pycache__"))
    for path in (built(it) for it in programs if (TOP / built(it)).is_file()):
        (to / path).parent.mkdir()
        shutil.copy2(TOP / path, to / path)
    return to


def written(folder: Path, files: dict[str, str]) -> None:
    """Writes the files of a copy, and makes each one executable."""
    for name, text in files.items():
        path = folder / name
        path.parent.mkdir(parents=True, exist_ok=True)
        path.write_text(text)
        path.chmod(0o755)


def said_by(words: tuple[str, ...], copy: Path, bin_folder: Path | None = None, **variables: str) -> tuple[int, str]:
    """Runs a command in a copy, with the programs of a folder before all others.

    Returns its status and its whole output.
    """
    own = {"TMPDIR": str(copy.parent), "PYTHONDONTWRITEBYTECODE": "1"}
    if bin_folder:
        own["PATH"] = f"{bin_folder}:{os.environ['PATH']}"
    how = {"stdin": subprocess.DEVNULL, "stdout": subprocess.PIPE, "stderr": subprocess.STDOUT, "timeout": 300}
    try:
        ran = subprocess.run(words, cwd=copy, env=os.environ | own | variables, text=True, errors="replace", **how)
    except subprocess.TimeoutExpired as late:
        return 124, f"no end after {late.timeout} seconds"
    return ran.returncode, ran.stdout


def fault_of(case: Case, copy: Path, command: tuple[str, ...] = (), failing: int = 1, **variables: str) -> str | None:
    """Returns what a test does not report of a case, or None if it reports the case. It restores the copy."""
    path = copy / case.file
    before = path.read_bytes()
    if case.old.encode() not in before:
        return f"{case.old!r} is not in {case.file}"
    path.write_bytes(before.replace(case.old.encode(), case.new.encode(), 1))
    status, said = said_by(command or tuple(case.test.split()), copy, None, **variables)
    path.write_bytes(before)
    if (status, case.said in said) != (failing, True):
        return f"status {status} in place of {failing} with {case.said!r}: {said[-400:]}"
    return None
