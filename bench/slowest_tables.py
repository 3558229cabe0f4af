#!/usr/bin/env python3
"""Times lookups in the tables that slow a lookup most, beside rtrlib's pfx_table (Debian's librtr-dev).

The tables are 40,000 AS numbers of one prefix, prefixes of all lengths inside one another, and 40,000 VRPs of such
prefixes. Each table is asked for three routes: one that its longest prefixes do not cover, one that no VRP matches, and
a valid one. A time is in microseconds of the processor, the least of RUNS. Both programs must print the same answers.
bench/clock.c makes each clock count the time of the processor. bench_growth has to be built (rt run in its folder).
"""

import os
import subprocess
import sys
import tempfile

from regress import GROWTH, TOP

RUNS = 5
TABLES = (("one prefix", "one", 40_000), ("all lengths", "chain", 32), ("both", "chain", 40_000))


def asked(*command):
    """Returns what a program answers, and the microseconds of a lookup of each route."""
    env = os.environ | {"LD_PRELOAD": f"{folder}/clock.so"}
    run = subprocess.run(command, capture_output=True, text=True, check=True, env=env)
    times = [int(line.split()[2]) / 1000 for line in run.stderr.splitlines() if line.startswith("routes")]
    return run.stdout, times


with tempfile.TemporaryDirectory() as folder:
    for words in ("peer bench/origins.c -lrtr", "clock.so bench/clock.c -shared -fPIC"):
        subprocess.run(["cc", "-O2", "-o", *f"{folder}/{words}".split()], cwd=TOP, check=True)
    print(f"{'':12}  {'beside':>16}  {'none matches':>16}  {'valid':>16}")
    print(f"{'':12}" + f"  {'ours':>7}  {'rtrlib':>7}" * 3)
    for name, word, count in TABLES:
        measured = [[asked(program, word, str(count)) for _ in range(RUNS)] for program in (GROWTH, f"{folder}/peer")]
        answers = {answer for runs_of_one in measured for answer, _ in runs_of_one}
        if len(answers) > 1:
            sys.exit(f"{name}: {answers}")
        least = [[min(column) for column in zip(*(times for _, times in runs_of_one))] for runs_of_one in measured]
        print(f"{name:12}" + "".join(f"  {one:7.2f}  {other:7.2f}" for one, other in zip(*least)))
