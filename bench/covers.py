#!/usr/bin/env python3
"""covers.py [N ..]: times how long programs take to find the shortest list of prefixes for N random IPv4 prefixes.

The programs are respath with its command `cover`, and Debian's aggregate, netmask and python3-netaddr. A prefix has 20
to 28 bits. Each time is the least of five runs in turn, in seconds of the processor. The script names a program that
is missing or prints another list. A program that takes more than three seconds runs once, and gets no longer list.
"""

import random
import shutil
import subprocess
import sys
import tempfile
from pathlib import Path

from origins import TOP, address, run

NETADDR = """
import sys, netaddr
for it in netaddr.cidr_merge(sys.stdin.read().split()): print(it)
"""
SIZES = 10_000, 30_000, 100_000, 1_000_000
callers = {
    "respath": [TOP / "crates" / "respath_program" / "out" / "respath_program"],
    "aggregate": [shutil.which("aggregate"), "-q"],
    "netmask": [shutil.which("netmask"), "-c", "-f", "/dev/stdin"],
    "netaddr": ["/usr/bin/python3", "-c", NETADDR],
}


def prefixes(count):
    """Yields random prefixes, whose host bits are clear. Two of every three are neighbours that join."""
    made = random.Random(count)
    for at in range(count):
        if at % 3 != 2:
            length = made.randint(20, 28)
            number = made.randrange(1 << length) << 32 - length
        else:
            number ^= 1 << 32 - length
        yield f"{address(32, number)}/{length}"


def asked(name, list_of, folder):
    """Returns the answer as a list of prefixes, and the seconds of the processor."""
    given, answer = Path(folder, "input"), Path(folder, "answer")
    given.write_text("cover v4 " + ",".join(list_of) + "\n" if name == "respath" else "\n".join(list_of) + "\n")
    took, _ = run(callers[name], given, answer)
    return answer.read_text().replace(", ", "\n").replace(" ", "").split(), took


subprocess.run([TOP / "respath"], stdin=subprocess.DEVNULL, check=True)  # builds it
there = [name for name, command in callers.items() if command[0]]
if subprocess.run(["/usr/bin/python3", "-c", "import netaddr"], stderr=subprocess.DEVNULL).returncode:
    there.remove("netaddr")
for name in callers.keys() - set(there):
    print(f"left out: there is no {name}")
print(f"{'N':>8}{'left':>9}" + "".join(f"{it:>11}" for it in there))
all_there = there
with tempfile.TemporaryDirectory() as folder:
    for count in map(int, sys.argv[1:] or SIZES):
        inputs = list(prefixes(count))
        least, answers = {}, {}
        for _ in range(5):
            for name in there:
                if least.get(name, 0) < 3:
                    answers[name], took = asked(name, inputs, folder)
                    least[name] = min(took, least.get(name, took))
        wanted = answers["respath"]
        shown = (f"{least[it]:>11.3f}" if it in least else f"{'-':>11}" for it in all_there)
        print(f"{count:>8}{len(wanted):>9}" + "".join(shown), flush=True)
        for name in there:
            if answers[name] != wanted:
                print(f"{name} answers otherwise: {len(answers[name])} prefixes")
        there = [it for it in there if least[it] < 3]
