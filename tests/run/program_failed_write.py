#!/usr/bin/env python3
"""program_failed_write.py: shows that the built programs write nothing after a write to standard output failed.

The standard output is a UDP socket whose first write fails and whose later writes are accepted: an earlier datagram to
the same port had no receiver, and the kernel reports that at the next write. Then a receiver takes the port. Each run
must end with status 1 and `write failed`, and the receiver must get nothing from the program. A last datagram of this
script must arrive, so the socket did accept writes. The status of this script is 1 if a run differs.
"""

import socket
import subprocess
import sys
import tempfile
from collections.abc import Iterator
from pathlib import Path

import top  # noqa: F401
from blocks import program

LINES, VRPS = "norm as 2,1\nnorm as x\n", "AS64496,192.0.2.0/23,24\n"
ROUTES = "192.0.2.0/24 AS64496\n192.0.2.0/25 AS64496\n"
# A program, its words, its standard input and the text of its files `one` and `two`. The outputs are small: a datagram
# holds less than the buffer of a program.
RUNS = (
    ("respath", "", LINES, LINES),
    *(("respath_program", it, LINES, LINES)
      for it in ("", "-", "one two", "--check", "--where", "--check --where one -")),
    *(("origins", it, ROUTES, VRPS) for it in ("one", "--check one", "--why one", "--json one", "--json --check one")),
    *(("origins", it, "", VRPS) for it in ("--table one", "--diff one two")),
)
LAST = b"the end"


def fault_of(name: str, words: str, given: str, folder: Path) -> str:
    """Runs a program on a socket whose first write fails, and returns what is wrong."""
    kind = socket.AF_INET, socket.SOCK_DGRAM
    with socket.socket(*kind) as unused:
        unused.bind(("127.0.0.1", 0))
        place = unused.getsockname()
    with socket.socket(*kind) as output, socket.socket(*kind) as receiver:
        output.connect(place)
        output.send(b"no receiver yet")
        receiver.bind(place)
        receiver.settimeout(60)
        how = {"input": given.encode(), "stdout": output, "stderr": subprocess.PIPE, "cwd": folder, "timeout": 60}
        ran = subprocess.run([program(name), *words.split()], **how)
        said = ran.stderr.decode("utf-8", "replace")
        try:
            output.send(LAST)
        except ConnectionRefusedError:
            return f"status {ran.returncode}, {said!r}, and no write"
        after = [*iter(lambda: receiver.recv(1 << 16), LAST)]
    is_so = (ran.returncode, said, after) == (1, f"{name.removesuffix('_program')}: write failed\n", [])
    return "" if is_so else f"status {ran.returncode}, {said!r}, {len(after)} writes after the one that failed"


def faults(folder: Path) -> Iterator[str]:
    """Yields for each run what is wrong, or an empty text."""
    for name, words, given, text in RUNS:
        if not program(name).is_file():
            print(f"left out  {name} {words}: the program is not built")
            continue
        for file in ("one", "two"):
            (folder / file).write_text(text.replace("/23", "/24") if file == "two" else text)
        fault = fault_of(name, words, given, folder)
        yield f"FAILED  {name} {words}: {fault}" if fault else ""


def main() -> int:
    """Prints what is wrong."""
    with tempfile.TemporaryDirectory() as name:
        found = [*faults(Path(name))]
    print("".join(f"{it}\n" for it in found if it), end="")
    differ = len([it for it in found if it])
    print(f"program_failed_write.py: {len(found)} runs, {differ} differ")
    return 1 if differ else 0


if __name__ == "__main__":
    sys.exit(main())
