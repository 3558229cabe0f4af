#!/usr/bin/env python3
"""lines.py [--rust PROGRAM] [--blocks N] [--runs N]: measures lines of `respath`, beside those of the crate `rpki`.

For each input it prints seconds of the processor, MiB and millions of instructions: ours, those of the crate, and their
ratio. A list has N ranges and prefixes. A `path` has ten `refuse` steps, each without every 100th block. A `trail`
refuses and trims in turn, and every 1000th block differs. `short` is 3 N lines of five commands. The crate sorts in
quadratic time, so it gets no `random` list, which is shuffled. respath has to be built. --rust is as in sets.py.
"""

import argparse
import re
import sys
import tempfile
from concurrent.futures import ThreadPoolExecutor
from pathlib import Path

import regress
from origins import TOP, run

PROGRAM = TOP / "crates" / "respath_program" / "out" / "respath_program"
SINGLE = {"as": "", "v4": "/30", "v6": "/126"}
STEPS = {"path": (100, ("refuse", "refuse")), "trail": (1000, ("refuse", "trim"))}


def inputs(count):
    """Yields the name of each input, and the input."""
    for command in ("norm", "der", "read", "cover", "path", "trail", "random"):
        for kind in regress.KINDS[command == "cover" :]:
            ranges = enumerate(regress.ranges(kind, count))
            blocks = [it if at % 2 else it.split("-")[0] + SINGLE[kind] for at, it in ranges]
            text = f"{kind} {', '.join(regress.shuffled(blocks) if command == 'random' else blocks)}\n"
            if command == "read":
                text = f"{kind} {regress.answer(f'der {text}')}"
            line = f"{'norm' if command == 'random' else command} {text}"
            yield f"{command}-{kind}", regress.path(kind, blocks, *STEPS[command]) if command in STEPS else line
    short = regress.short_lines(9 * count // 5)
    ders = "".join(re.findall("der .*\n", short))
    read = "".join(f"read {regress.KINDS[at % 3]} {it}\n" for at, it in enumerate(regress.answer(ders).split()))
    yield "short", short + read + ders.replace("der as", "norm as").replace("der v", "cover v")


def timed(programs, given, runs):
    """Returns the least seconds and the least MiB of each program for an input."""
    answers = [given.with_suffix(f".{at}") for at, _ in enumerate(programs)]
    rounds = [[run([program], given, to) for program, to in zip(programs, answers)] for _ in range(runs)]
    if len({it.read_bytes() for it in answers}) > 1:
        sys.exit(f"{given.name}: the programs print different answers")
    return zip(*(map(min, zip(*its)) for its in zip(*rounds)))


parser = argparse.ArgumentParser()
for option, kind, usual in (("--rust", Path, None), ("--blocks", int, 100_000), ("--runs", int, 20)):
    parser.add_argument(option, type=kind, default=usual)
options = parser.parse_args()
print("input      seconds   rpki ratio     MiB   rpki ratio   instructions    rpki ratio")
with tempfile.TemporaryDirectory() as folder, ThreadPoolExecutor(4) as pool:
    both = [PROGRAM, *([options.rust] if options.rust else [])]
    asked = [(name, text, both[: 1 if "random" in name else 2]) for name, text in inputs(options.blocks)]
    called = [[regress.Input(name, (it,), text) for it in programs] for name, text, programs in asked]
    for (name, text, programs), counts in zip(asked, [*pool.map(lambda of: [*map(regress.instructions, of)], called)]):
        shown, given = f"{name:<10}", Path(folder, name)
        given.write_text(text)
        groups = (*timed(programs, given, options.runs), [it / 1e6 for it in counts])
        for group, widths in zip(groups, (("8.3f", "7.3f"), ("8.1f", "7.1f"), ("15.1f", "8.1f"))):
            shown += "".join(f"{it:{width}}" for it, width in zip(group, widths))
            shown += f"{group[0] / group[1]:6.2f}" if group[1:] else "      -     -"
        print(shown, flush=True)
