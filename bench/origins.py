#!/usr/bin/env python3
"""Measures the time and the memory that `origins` takes to answer routes by a validator's file, beside rtrlib's table.

VRPs and routes are made at random. They are flat, mostly of 24 bits, or nested about 80 deep. Each answer is compared
with that of rtrlib (Debian's librtr-dev), if rtrlib is there. rtrlib's time is that of its table alone, in memory,
without any reading. Times are in seconds of the processor, the least of some runs. The peak of memory is in MiB.
"""

import argparse
import os
import random
import re
import shutil
import subprocess
import sys
import tempfile
from collections.abc import Iterator
from functools import cache
from pathlib import Path

TOP = Path(__file__).resolve().parent.parent
PROGRAM = TOP / "crates" / "origins" / "out" / "origins"
BUILT = tempfile.TemporaryDirectory()
Vrp = tuple[int, int, int, int, int]  # bits of the family, the address, the length, the maximum length, the AS
Route = tuple[int, int, int, int]


def address(bits: int, number: int) -> str:
    """Returns an address as text."""
    if bits == 32:
        return ".".join(str(number >> shift & 255) for shift in (24, 16, 8, 0))
    return ":".join(f"{number >> shift & 0xFFFF:x}" for shift in range(112, -1, -16))


def flat(made: random.Random, count: int) -> Iterator[Vrp]:
    """Yields VRPs, four of five of IPv4 and most of these of 24 bits."""
    for _ in range(count):
        bits = 32 if made.randrange(5) else 128
        length = (24 if made.randrange(5) else made.randint(16, 24)) if bits == 32 else made.randint(29, 48)
        number = made.getrandbits(length) << bits - length
        longest = min(bits, length + (made.randrange(9) if made.randrange(4) == 0 else 0))
        yield bits, number, length, longest, made.randint(1, 70_000)


def nested(made: random.Random, count: int) -> Iterator[Vrp]:
    """Yields VRPs of IPv6 in chains of every length from 32 to 112 bits. Each prefix is in a chain of about 80."""
    while count > 0:
        number = made.getrandbits(128)
        for length in range(32, min(113, 32 + count)):
            longest = min(128, length + made.randrange(3))
            yield 128, number >> 128 - length << 128 - length, length, longest, made.randint(1, 40)
        count -= 81


def routes_of(made: random.Random, vrps: list[Vrp], count: int) -> Iterator[Route]:
    """Yields routes. Three of five are of VRPs, some of these longer or by another AS."""
    for _ in range(count):
        bits, number, length, longest, asn = made.choice(vrps)
        if made.randrange(5) < 2:
            length = made.randint(8, 24) if bits == 32 else made.randint(24, 64)
            number, asn = made.getrandbits(length) << bits - length, made.randint(1, 70_000)
        elif made.randrange(3) == 0:
            length = min(bits, longest + made.randrange(3))
            number |= made.getrandbits(bits) >> made.randint(1, bits) if bits == 128 else 0
            number = number >> bits - length << bits - length
        elif made.randrange(3) == 0:
            asn += 1
        yield bits, number, length, asn


@cache
def started() -> Path:
    """Compiles bench/started.c, which runs a program and measures it."""
    built = Path(BUILT.name, "started")
    subprocess.run(["cc", "-O2", "-o", built, TOP / "bench" / "started.c"], check=True)
    return built


def run(words: list[object], stdin: Path | None, stdout: Path) -> tuple[float, float]:
    """Runs a program. Returns the seconds of the processor and the peak of memory in MiB."""
    with open(stdin or os.devnull, "rb") as given, open(stdout, "wb") as taken:
        ran = subprocess.run([started(), *words], stdin=given, stdout=taken, stderr=subprocess.PIPE, check=True)
    status, seconds, memory = ran.stderr.decode().split()
    if status != "0":
        raise SystemExit(f"{words}: status {status}")
    return float(seconds), int(memory) / 1024


def rtrlib(folder: Path) -> Path | None:
    """Returns the program that uses rtrlib, or None if it cannot be compiled here."""
    built = folder / "rtrlib_origins"
    compiler = shutil.which("cc")
    source = TOP / "bench" / "rtrlib_origins.c"
    words = [compiler, "-O2", "-o", built, source, "-lrtr"]
    done = compiler and subprocess.run(words, check=False, capture_output=True)
    if done and done.returncode == 0:
        return built
    print("left out: rtrlib, which needs cc and Debian's librtr-dev", file=sys.stderr)
    return None


def write(path: Path, lines: Iterator[str]) -> None:
    """Writes a file of these lines."""
    path.write_text("".join(f"{line}\n" for line in lines), encoding="ascii")


def prefix(one: Vrp | Route) -> str:
    """Returns the prefix of a VRP or a route."""
    bits, number, length, *_ = one
    return f"{address(bits, number)}/{length}"


def written(folder: Path, vrps: list[Vrp], routes: list[Route]) -> None:
    """Writes the input files: VRPs in both forms, routes, and both for rtrlib's program."""
    write(folder / "csv", (f"AS{one[4]},{prefix(one)},{one[3]}" for one in vrps))
    items = (f'{{"asn":{one[4]},"prefix":"{prefix(one)}","maxLength":{one[3]},"ta":"x"}}' for one in vrps)
    (folder / "json").write_text('{"roas":[' + ",\n".join(items) + "]}", encoding="ascii")
    write(folder / "routes", (f"{prefix(one)} AS{one[3]}" for one in routes))
    write(folder / "plain", (f"{prefix(one).replace('/', ' ')} {one[3]} {one[4]}" for one in vrps))
    write(folder / "wanted", (f"{prefix(one).replace('/', ' ')} {one[3]}" for one in routes))


def compare(name: str, asked: Path, folder: Path, found: list[str], runs: int) -> None:
    """Prints rtrlib's times, and compares its answers."""
    times = []
    for _ in range(runs):
        words = [asked, *(folder / name for name in ("plain", "wanted", "expected"))]
        measured = subprocess.run(words, check=True, capture_output=True, text=True)
        times.append([float(time) for time in measured.stdout.split()])
    made_in, asked_in = min(times, key=sum)
    shown = f"(its table {made_in:.2f}, lookups {asked_in:.2f})"
    print(f"{name + ', rtrlib, in memory':<36}{made_in + asked_in:>8.2f}       - {shown}")
    expected = (folder / "expected").read_text(encoding="ascii").splitlines()
    differing = sum(one != other for one, other in zip(expected, found, strict=True))
    counts = ", ".join(f"{expected.count(one)} {one}" for one in ("valid", "invalid", "not-found"))
    print(f"{name}: {counts}; {differing} of {len(found)} answers differ from rtrlib's")
    if differing:
        raise SystemExit(1)


def measure(name: str, asked: Path | None, folder: Path, vrps: list[Vrp], options: argparse.Namespace) -> None:
    """Prints the lines of one kind of VRPs."""
    program, csv, answers = options.program, folder / "csv", folder / "answers"
    written(folder, vrps, list(routes_of(random.Random(f"{name} routes"), vrps, options.routes)))
    calls = {
        "csv, routes": ([program, csv], folder / "routes"),
        "csv, no routes": ([program, csv], None),
        "json, routes": ([program, folder / "json"], folder / "routes"),
        "csv, --why": ([program, "--why", csv], folder / "routes"),
        "csv, --table": ([program, "--table", csv], None),
        "csv, --diff with itself": ([program, "--diff", csv, csv], None),
    }
    for call, (words, given) in calls.items():
        used = [run(words, given, answers) for _ in range(options.runs)]
        print(f"{name + ', ' + call:<36}{min(used)[0]:>8.2f}{max(memory for _, memory in used):>8.0f}")
        if call == "csv, routes":
            found = re.findall(r"^(invalid|[a-z-]+)", answers.read_text(encoding="ascii"), re.MULTILINE)
    if asked is not None:
        compare(name, asked, folder, found, options.runs)


def main() -> int:
    """Reads the options and measures."""
    parser = argparse.ArgumentParser(description=__doc__.splitlines()[0])
    parser.add_argument("--vrps", type=int, default=500_000)
    parser.add_argument("--routes", type=int, default=1_000_000)
    parser.add_argument("--runs", type=int, default=3)
    parser.add_argument("--program", type=Path, default=PROGRAM)
    options = parser.parse_args()
    with tempfile.TemporaryDirectory() as name:
        folder = Path(name)
        asked = rtrlib(folder)
        print(f"{options.vrps} VRPs, {options.routes} routes{'':<8}seconds     MiB")
        for kind, make in (("nested", nested), ("flat", flat)):
            vrps = list(make(random.Random(kind), options.vrps))
            measure(kind, asked, folder, vrps, options)
        (folder / "more").write_bytes((folder / "routes").read_bytes() * 10)
        seconds, memory = run([options.program, folder / "csv"], folder / "more", folder / "answers")
        print(f"{f'ten times these routes: {10 * options.routes}':<36}{seconds:>8.2f}{memory:>8.0f}")
    return 0


if __name__ == "__main__":
    sys.exit(main())
