#!/usr/bin/env python3
"""regress.py [--within PERCENT] [--write]: compares the instructions of programs with the figures in bench/regress.txt.

Valgrind's callgrind counts the instructions of the built programs, and of calls from C, on inputs that are made here.
The same program and input give the same count, independent of other work of the machine. The script prints each count
that is more than PERCENT (or 5) percent off its figure, in either direction. Then the status is 1. It is also 1 for an
input without a figure, because nothing was compared. A commit that changes counts on purpose also changes the figures
(--write).

The first line of bench/regress.txt names the kit, the C library and the processor of the figures. Nothing is counted
with others, without valgrind, or if a program is not built. Calls from C are left out by name if the library is not
built, and --write then writes nothing.
"""

import argparse
import os
import platform
import random
import re
import shutil
import subprocess
import sys
import tempfile
from collections.abc import Iterator
from concurrent.futures import ThreadPoolExecutor
from dataclasses import dataclass
from pathlib import Path

import origins

TOP = Path(__file__).resolve().parent.parent
FIGURES = Path(__file__).with_suffix(".txt")
RESPATH = TOP / "crates" / "respath" / "out" / "respath"
GROWTH = TOP / "crates" / "bench_growth" / "out" / "bench_growth"
ORIGINS = TOP / "crates" / "origins" / "out" / "origins"
LIBRARY = TOP / "crates" / "pigyelund_c" / "out" / "libpigyelund_c.a"
KINDS = ("as", "v4", "v6")
CALLS = ("verify", "path", "union", "intersection", "difference", "contains", "held")


@dataclass(frozen=True)
class Input:
    """A program with its arguments, and what it gets on the standard input."""

    name: str
    command: tuple[str | Path, ...]
    given: str = ""


def written(kind: str, number: int) -> str:
    """Returns the AS number or address with a number."""
    if kind == "as":
        return f"AS{number}"
    return origins.address(32, number) if kind == "v4" else f"2001:db8::{number >> 16:x}:{number & 0xFFFF:x}"


def ranges(kind: str, count: int, skipped: int = 0) -> list[str]:
    """Returns ascending ranges that do not touch. It leaves out every range whose number is a multiple of `skipped`."""
    listed = (at for at in range(count) if not skipped or at % skipped)
    return [f"{written(kind, 16 * at)}-{written(kind, 16 * at + 1 + at % 9)}" for at in listed]


def shuffled(elements: list[str]) -> list[str]:
    random.Random(len(elements)).shuffle(elements)
    return elements


def path(kind: str, whole: list[str], period: int = 100, modes: tuple[str, str] = ("refuse", "trim")) -> str:
    """Returns a path of ten steps, whose modes are in turn the two given ones. No step is refused.

    Each leaves out every PERIODth block. A `trim` lists the blocks again that the steps before it left out.
    """
    steps = []
    for step, mode in enumerate(modes * 5):
        left_out = range(step if mode == "trim" else 0, step + 1)
        steps.append(f"{mode} {', '.join(it for at, it in enumerate(whole) if at % period not in left_out)}")
    return f"path {kind} {', '.join(whole)} | {' | '.join(steps)}\n"


def short_lines(count: int) -> str:
    """Returns short lines of the commands in turn."""
    made = []
    for at in range(count):
        kind = KINDS[at % 3]
        two = f"{written(kind, at + 1)}, {written(kind, at)}"
        made.append((f"norm {kind} {two}\n", f"der {kind} {two}\n", f"path {kind} {two} | trim {two}\n")[at // 3 % 3])
    return "".join(made)


def answer(line: str) -> str:
    """Returns the program's answer to a line."""
    ran = subprocess.run([RESPATH], input=line, stdout=subprocess.PIPE, text=True, check=True)
    return ran.stdout


def lines() -> Iterator[tuple[str, str]]:
    """Yields the names of inputs of `respath`, and the inputs."""
    for kind in KINDS:
        yield f"norm-{kind}", f"norm {kind} {', '.join(ranges(kind, 20_000))}\n"
    for kind in KINDS:
        yield f"norm-{kind}-shuffled", f"norm {kind} {', '.join(shuffled(ranges(kind, 10_000)))}\n"
    prefixes = ", ".join(f"2001:db8:{at >> 8:x}:{at << 8 & 0xFFFF:x}::/63" for at in range(10_000))
    yield "norm-v6-prefixes", f"norm v6 {prefixes}\n"
    for kind in KINDS:
        line = f"der {kind} {', '.join(ranges(kind, 10_000))}\n"
        yield f"der-{kind}", line
        yield f"read-{kind}", f"read {kind} {answer(line)}"
    for kind in KINDS:
        yield f"path-{kind}", path(kind, ranges(kind, 2_000))
    for kind in ("v4", "v6"):
        yield f"cover-{kind}", f"cover {kind} {', '.join(ranges(kind, 5_000))}\n"
    yield "short-lines", short_lines(10_000)


def of_vrps(folder: Path, kind: str) -> Iterator[Input]:
    """Yields the inputs of one kind of VRPs.

    They are files of 20,000 VRPs in both forms, in random order and in the order of the table, and 50,000 routes by
    2,000 VRPs. `--table` lists the VRPs of a file. A run without routes only makes the table of VRPs.
    """
    vrps = list(getattr(origins, kind)(random.Random(kind), 20_000))
    few = vrps[:2_000]
    routes = list(origins.routes_of(random.Random(f"{kind} routes"), few, 50_000))
    for order, listed in (("", vrps), ("-sorted", sorted(vrps)), ("-few", few)):
        files = folder / f"{kind}{order}"
        files.mkdir()
        origins.written(files, listed, routes)
        if listed is not few:
            for form in ("csv", "json"):
                yield Input(f"table-{kind}-{form}{order}", (ORIGINS, "--table", files / form))
            yield Input(f"no-routes-{kind}{order}", (ORIGINS, files / "csv"))
    asked = (files / "routes").read_text()
    yield Input(f"routes-{kind}", (ORIGINS, files / "csv"), asked)
    first = "".join(asked.splitlines(keepends=True)[:2_000])
    for option in ("why", "json"):
        yield Input(f"{option}-{kind}", (ORIGINS, f"--{option}", files / "csv"), first)


def of_origins(folder: Path) -> Iterator[Input]:
    """Yields inputs of `origins`: VRPs and routes, many routes by few VRPs, a long line, and what changes."""
    for kind in ("flat", "nested"):
        yield from of_vrps(folder, kind)
    few, next_file = folder / "few", folder / "next"
    few.write_text("AS64496,192.0.2.0/23,24\n")
    yield Input("routes-stream", (ORIGINS, few), "192.0.2.0/24 AS64496\n10.0.0.0/8 AS1\n" * 25_000)
    yield Input("routes-long-line", (ORIGINS, few), f"192.0.2.0/24 {' ' * 4_000_000}AS64496\n")
    before = folder / "flat" / "csv"
    lines = before.read_text().splitlines(keepends=True)
    next_file.write_text("".join(lines[300:]) + "".join(f"AS{at},198.51.100.0/24,24\n" for at in range(1, 301)))
    yield Input("diff-flat", (ORIGINS, "--diff", before, next_file))


def compile_calls(folder: str | Path, *names: str) -> None:
    """Makes the static library for C, and compiles programs of bench/ that call it."""
    variables = [f"OUT={folder}", f"LIB={LIBRARY}", f"KIT={kit()}", "CC=gcc", "CFLAGS=-O2"]
    subprocess.run(["make", "-s", "-C", TOP / "foreign" / "c", *variables, "static"], check=True)
    for name in names:
        built = [Path(folder, name), TOP / "bench" / f"{name}.c", Path(folder, "libpigyelund.a")]
        subprocess.run(["gcc", "-O2", "-o", *built], check=True)


def of_calls(folder: Path) -> Iterator[Input]:
    """Yields calls from C: on two sets of 1,000 blocks (bench/calls.c), and on a table (bench/routes.c).

    `held` makes 5,000 calls with one certificate of 3 blocks of each kind, and its issuer's set is read once.
    """
    compile_calls(folder, "calls", "routes")
    whole = [bytes.fromhex(answer(f"der {kind} {', '.join(ranges(kind, 1_000))}\n")) for kind in ("as", "v4")]
    part = [bytes.fromhex(answer(f"der {kind} {', '.join(ranges(kind, 1_000, 7))}\n")) for kind in ("as", "v4")]
    child = [bytes.fromhex(answer(f"der {kind} {', '.join(ranges(kind, 1_000)[::400])}\n")) for kind in ("as", "v4")]
    for name, times, claim in (("octets", "5", part), ("held", "5000", child)):
        (folder / name).write_bytes(b"".join([*whole, *claim]))
        lengths = [str(len(it)) for it in (*whole, claim[0])]
        for call in (it for it in CALLS if (it == "held") == (name == "held")):
            yield Input(f"call-{call}", (folder / "calls", call, times, folder / name, *lengths))
    for how in ("together", "alone", "changed"):
        yield Input(f"call-routes-{how}", (folder / "routes", how, "20000", "20000"))


def instructions(asked: Input) -> int:
    """Returns how many instructions a program takes for an input."""
    with tempfile.TemporaryFile("w+") as file:
        file.write(asked.given)
        file.seek(0)
        valgrind = shutil.which("valgrind") or "valgrind"
        counting = [valgrind, "--tool=callgrind", "--callgrind-out-file=/dev/null", *asked.command]
        how = {"stdin": file, "stdout": subprocess.DEVNULL, "stderr": subprocess.PIPE, "text": True, "check": True}
        ran = subprocess.run(counting, env={"PATH": "/usr/bin:/bin"}, **how)
    return int(re.findall(r"^==\d+== Collected : (\d+)", ran.stderr, re.MULTILINE)[-1])


def calls_left_out() -> str:
    """Returns why the calls from C cannot be counted here, or an empty text."""
    if not LIBRARY.exists():
        return f"{LIBRARY.name} is not built (rt lib in crates/pigyelund_c)"
    return "" if shutil.which("gcc") else "gcc is not there"


def inputs(folder: Path) -> Iterator[Input]:
    """Yields all inputs of the programs that are built."""
    for name, given in lines():
        yield Input(name, (RESPATH,), given)
    yield Input("sets", (GROWTH, "5000"))
    yield Input("sets-mixed", (GROWTH, "mixed", "5000"))
    for words in ("path 5000 1000", "path 5000 2", "mixed path 5000 10"):
        yield Input(words.replace(" ", "-"), (GROWTH, *words.split()))
    yield Input("origins", (GROWTH, "origins", "20000", "20000"))
    yield from of_origins(folder)
    if not calls_left_out():
        yield from of_calls(folder)


def counted() -> Iterator[tuple[str, int]]:
    """Yields each input's name and its instructions."""
    with tempfile.TemporaryDirectory() as folder, ThreadPoolExecutor(min(4, os.cpu_count() or 1)) as pool:
        asked = list(inputs(Path(folder)))
        yield from zip((it.name for it in asked), pool.map(instructions, asked), strict=True)


def left_out(is_written: bool) -> str:
    """Returns why nothing is counted, or an empty text if the inputs are counted."""
    if shutil.which("valgrind") is None:
        return "valgrind is not there"
    for program in (RESPATH, GROWTH, ORIGINS):
        if not program.exists():
            return f"{program.name} is not built"
    figures = FIGURES.read_text().split("\n")[0] if FIGURES.exists() else ""
    if not is_written and figures != what_counts():
        return f"the figures are by {figures}"
    return ""


def kit() -> Path:
    """Returns the folder of the kit."""
    return Path(shutil.which("rt") or "rt").resolve().parent.parent


def what_counts() -> str:
    """Returns the names of the kit, the C library and the processor."""
    kit = subprocess.run(["rt", "version"], stdout=subprocess.PIPE, text=True, check=True).stdout.split()[0]
    processor = re.search(r"^model name\s*: (.*)", Path("/proc/cpuinfo").read_text(), re.MULTILINE)
    return ", ".join([kit, " ".join(platform.libc_ver()), processor[1] if processor else platform.machine()])


def compare(within: float) -> int:
    """Prints each count that is off its figure, each figure without an input, and each input without a figure."""
    figures = {name: int(figure) for name, figure in map(str.split, FIGURES.read_text().splitlines()[1:])}
    if need := calls_left_out():
        print(f"left out: the inputs call-*: {need}")
    off, gone = 0, {name for name in figures if not need or not name.startswith("call-")}
    asked = list(counted())
    for name, count in asked:
        gone.discard(name)
        if name not in figures:
            off += 1
            print(f"{name}: {count} instructions, no stored figure")
        elif abs(count - figures[name]) * 100 > figures[name] * within:
            off += 1
            print(f"{name}: {count} instructions, where {figures[name]} are stored")
    if gone:
        print(f"figures of no input: {', '.join(sorted(gone))}")
    print(f"instructions of {len(asked)} inputs: {off} are off their figures, or have none")
    return 1 if off or gone else 0


def write() -> int:
    """Writes the figures of all inputs, or none."""
    if need := calls_left_out():
        print(f"no figures are written: {need}")
        return 1
    made = [what_counts(), *(f"{name} {count}" for name, count in counted())]
    FIGURES.write_text("\n".join(made) + "\n")
    return 0


def main() -> int:
    """Compares the counts with the figures, or writes them."""
    parser = argparse.ArgumentParser()
    parser.add_argument("--within", type=float, default=5, metavar="PERCENT")
    parser.add_argument("--write", action="store_true")
    asked = parser.parse_args()
    if reason := left_out(asked.write):
        print(f"left out: instructions are not counted: {reason}")
        return int(asked.write)
    return write() if asked.write else compare(asked.within)


if __name__ == "__main__":
    sys.exit(main())
