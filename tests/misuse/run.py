#!/usr/bin/env python3
"""Runs wrong callers, each of which has to be refused: run.py FOLDER [LANGUAGE ..].

FOLDER has libpigyelund.a and libpigyelund.so. The languages are c, python and rust, or all of them. Each file of
tests/misuse/LANGUAGE with the suffix .c, .py or .rs is a wrong caller. Its first line is a comment that says how it is
refused:

- `refused at compile: TEXT`: gcc and clang with -Wall -Wextra -Werror, mypy --strict, or cargo refuse the file, and
  say TEXT.
- `refused at run: TEXT`: it compiles and runs. The run fails and prints TEXT.
- `accepted: WHY`: a right caller, which shows that the others are not refused for another reason. The run succeeds and
  prints "accepted".

The status is 1 if a caller is refused in another way or not at all, or if its run prints "accepted".
"""

import os
import re
import shutil
import subprocess
import sys
import tempfile
from collections.abc import Iterator
from pathlib import Path

TOP = Path(__file__).resolve().parents[2]
HERE = TOP / "tests" / "misuse"
SUFFIXES = {"c": ".c", "python": ".py", "rust": ".rs"}
MANIFEST = """[package]
name = "misuse"
version = "0.1.0"
edition = "2021"
[dependencies]
pigyelund = {{ path = "{}" }}
"""


def ran(words: list[object], **variables: str) -> tuple[bool, str]:
    """Runs a command. Returns whether it succeeds, and what it prints."""
    told = subprocess.run(
        [str(it) for it in words], stdout=subprocess.PIPE, stderr=subprocess.STDOUT, text=True,
        env={**os.environ, "LC_ALL": "C", **variables},
    )
    return told.returncode == 0, told.stdout


def tries(file: Path, library: Path, folder: Path) -> Iterator[tuple[str, list[object], list[object]]]:
    """Yields for each compiler its name, the command that compiles a file, and the command that runs it."""
    if file.suffix == ".c":
        for compiler in filter(shutil.which, ("gcc", "clang")):
            options = ["-Wall", "-Wextra", "-Werror", f"-I{TOP / 'foreign'}", "-o", folder / "program"]
            yield compiler, [compiler, *options, file, library / "libpigyelund.a"], [folder / "program"]
    elif file.suffix == ".py":
        has_mypy = shutil.which("mypy") is not None
        check: list[object] = ["mypy", "--strict", f"--cache-dir={folder}", file] if has_mypy else ["true"]
        yield "mypy" if has_mypy else "", check, [sys.executable, file]
    else:
        (folder / "src").mkdir(exist_ok=True)
        (folder / "Cargo.toml").write_text(MANIFEST.format(TOP / "foreign" / "rust"))
        (folder / "src" / "main.rs").write_text(file.read_text())
        words: list[object] = ["-q", "--offline", "--manifest-path", folder / "Cargo.toml"]
        yield "cargo", ["cargo", "build", *words], ["cargo", "run", *words]


def fault(file: Path, library: Path, folder: Path) -> str | None:
    """Returns what is wrong with a caller. None if it is refused as its first line says."""
    said = re.search(r"(refused at compile|refused at run|accepted): (.+?)(?: \*/)?$", file.read_text().split("\n")[0])
    if not said:
        return "the first line does not say how the caller is refused"
    paths = {"PIGYELUND_LIB": str(library), "PYTHONPATH": str(TOP / "foreign" / "python" / "src")}
    paths["MYPYPATH"] = paths["PYTHONPATH"]
    for name, compile_it, run_it in tries(file, library, folder):
        compiles, text = ran(compile_it, **paths)
        if said[1] == "refused at compile":
            if name and (compiles or said[2] not in text):
                return f"{name} does not refuse it by {said[2]!r}: {text}"
            continue
        if not compiles:
            return f"{name} refuses it: {text}"
        succeeds, text = ran(run_it, **paths)
        is_accepted = succeeds or "accepted" in text
        if is_accepted != (said[1] == "accepted") or (not is_accepted and said[2] not in text):
            return f"{name}: expected {said[0]}, and the run prints {text!r}"
    return None


def main(words: list[str]) -> int:
    """Prints the callers that are not refused, and the number of all."""
    faults = count = 0
    for language in words[1:] or SUFFIXES:
        with tempfile.TemporaryDirectory() as folder:
            for file in sorted((HERE / language).glob(f"*{SUFFIXES[language]}")):
                count += 1
                if wrong := fault(file, Path(words[0]).resolve(), Path(folder)):
                    faults += 1
                    print(f"{file.relative_to(TOP)}: {wrong}")
    print(f"misuse: {count} callers, {faults} faults")
    return int(bool(faults) or not count)


if __name__ == "__main__":
    sys.exit(main(sys.argv[1:]))
