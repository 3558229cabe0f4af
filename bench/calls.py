#!/usr/bin/env python3
"""calls.py [N ..]: counts by callgrind what a call costs from C, over two sets of N blocks of each kind.

It prints the instructions of one call, in thousands, and the share of the functions of pigyelund_c, with the code that
is inlined there. A count is the mean of eleven calls. In `verify`, `path` and `contains` each block of the second set
is inside one of the first. In `held` the second set has three such blocks of each kind, and the first set is read only
once, which is not counted. In the other calls the blocks overlap. It needs gcc, make and valgrind, and the library (rt
lib).
"""

import re
import subprocess
import sys
import tempfile
from pathlib import Path

from regress import CALLS, TOP, compile_calls

sys.path.append(str(TOP / "tests"))
from reference import resources  # noqa: E402

TIMES = 11


def extensions(blocks):
    """Returns the octets of both extensions of a set that has these blocks of each kind (RFC 3779)."""
    v4, v6 = ([(first << shift, (last + 1 << shift) - 1) for first, last in blocks] for shift in (104, 80))
    return [resources.written_as_claim(blocks), resources.written_families(resources.Families(v4, v6))]


def written(one, other):
    """Writes a file of four values, two of one set and two of the other. Returns the words that name them."""
    values = [*extensions(one), *extensions(other)]
    Path(folder, "octets").write_bytes(b"".join(values))
    return [f"{folder}/octets", *(str(len(it)) for it in values[:3])]


def counts(call, times, words):
    """Returns the instructions of so many calls, and those of them in the border's own functions."""
    log = f"{folder}/callgrind"
    run = ["valgrind", "--tool=callgrind", f"--callgrind-out-file={log}", f"{folder}/calls", call, str(times), *words]
    subprocess.run(run, check=True, capture_output=True)
    whole, own = (annotated(log, kind) for kind in ("yes", "no"))
    all_of_it = sum(count for name, count in whole if re.fullmatch(r"pigy_\w+", name))
    return all_of_it, sum(count for name, count in own if name.startswith(("pigy_", "proved_", "pigyelund_c::")))


def shares(call, words):
    """Returns the thousands of instructions of one call, and the share of them in the border's own functions."""
    (all_of_it, border), (all_before, border_before) = counts(call, TIMES, words), counts(call, 0, words)
    return (all_of_it - all_before) / TIMES / 1000, (border - border_before) / (all_of_it - all_before)


def annotated(log, inclusive):
    """Returns each function with its instructions, which are inclusive of called functions if `inclusive` is `yes`."""
    words = ["callgrind_annotate", f"--inclusive={inclusive}", "--threshold=100", log]
    lines = subprocess.run(words, check=True, capture_output=True, text=True).stdout.splitlines()
    found = (re.match(r"\s*([\d,]+) \([\d. ]+%\)\s+\S*?:([\w:+<>#.]+)", line) for line in lines)
    return [(it[2], int(it[1].replace(",", ""))) for it in found if it]


with tempfile.TemporaryDirectory() as folder:
    compile_calls(folder, "calls")
    print(f"{'call':<14}{'N':>8}{'thousands':>12}{'border':>9}")
    for count in map(int, sys.argv[1:] or [1000]):
        one = [(16 * at + 1, 16 * at + 9) for at in range(count)]
        inside = [(16 * at + 3, 16 * at + 7) for at in range(count)]
        across = [(16 * at + 5, 16 * at + 12) for at in range(count)]
        others = dict.fromkeys(("verify", "path", "contains"), inside) | {"held": inside[:: max(1, count // 3)][:3]}
        for call in CALLS:
            took, border = shares(call, written(one, others.get(call, across)))
            print(f"{call:<14}{count:>8}{took:>12.1f}{border:>9.3f}")
