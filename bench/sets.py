#!/usr/bin/env python3
"""sets.py [--times] [--rust PROGRAM] ["WORD .."..]: measures calls in process, ours and those of the Rust crate `rpki`.

Each argument has the words of one run of crates/bench_growth, as "1000" or "mixed path 10000 10". For each call the
script prints its thousands of instructions: ours, those of the crate, and their ratio. Callgrind counts what is between
two readings of the clock, so a count has the call alone. With --times it also prints the microseconds of a call, the
least of RUNS runs of both programs in turn. Run this on a quiet machine.

bench_growth has to be built (rt run in its folder). PROGRAM is `growth` of vectors/run/rust, as cargo builds it.
Without --rust the script prints only our figures.
"""

import argparse
import os
import re
import subprocess
import sys
import tempfile
from pathlib import Path

from regress import GROWTH

RUNS, REPEATED = 20, 5
SUBJECTS = "1000", "100000", "path 10000 1000", "path 10000 10", "path 10000 2"
ASKED = [f"{kind} {it}" for kind in ("ranges", "mixed") for it in SUBJECTS]
# Between calls glibc returns no memory to the kernel.
KEEPS = {"GLIBC_TUNABLES": "glibc.malloc.mmap_threshold=4294967296:glibc.malloc.trim_threshold=4294967296"}
CALL = re.compile(r"^([a-z_-]+) \d+ (\d+)$", re.MULTILINE)


def counted(program: Path, words: list[str]) -> tuple[dict[str, float], set[str]]:
    """Returns the thousands of instructions of each call, and the lines that the program prints."""
    with tempfile.TemporaryDirectory() as name:
        valgrind = ["valgrind", "--tool=callgrind", f"--callgrind-out-file={name}/log", "--dump-before=clock_gettime*"]
        ran = subprocess.run([*valgrind, program, *words], capture_output=True, text=True, check=True)
        dumps = [Path(name, f"log.{at}").read_text() for at in range(1, len(os.listdir(name)))]
    counts = [sum(map(int, re.findall(r"^totals: (\d+)", it, re.MULTILINE))) / 1000 for it in dumps]
    return dict(zip((it[0] for it in CALL.findall(ran.stderr)), counts[1::2], strict=True)), {*ran.stdout.splitlines()}


def timed(programs: list[Path], words: list[str]) -> list[dict[str, float]]:
    """Returns the least microseconds of each call, for each program."""
    least: list[dict[str, float]] = [{} for _ in programs]
    for program, found in [*zip(programs, least)] * RUNS:
        ran = subprocess.run([program, *words * REPEATED], env=KEEPS, capture_output=True, text=True, check=True)
        for name, took in CALL.findall(ran.stderr):
            found[name] = min(float(took), found.get(name, float(took)))
    return least


def main() -> None:
    """Measures all runs. It ends with status 1 if the programs print different lines."""
    parser = argparse.ArgumentParser()
    parser.add_argument("--times", action="store_true")
    parser.add_argument("--rust", type=Path)
    parser.add_argument("asked", nargs="*", default=ASKED)
    options = parser.parse_args()
    programs = [GROWTH, *([options.rust] if options.rust else [])]
    for words in map(str.split, options.asked):
        figures, printed = zip(*(counted(it, words) for it in programs))
        groups = [figures, timed(programs, words)] if options.times else [figures]
        for name in figures[-1]:
            shown = f"{' '.join(words):<22}{name:<22}"
            for group in groups:
                shown += "".join(f"{it[name]:>11.1f}" for it in group)
                shown += f"{group[0][name] / group[-1][name]:>7.2f}"
            print(shown, flush=True)
        if not printed[-1] <= printed[0]:
            sys.exit(f"{' '.join(words)}: the programs print different lines")


if __name__ == "__main__":
    main()
