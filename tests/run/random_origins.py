#!/usr/bin/env python3
"""Compares what the program `origins` prints with what the reference says.

From a seed it makes files of VRPs in each form that validators write, also wrong ones. It also makes files with
expiries, SLURM files, and lines of routes. It asks the built program for answers in words and in JSON, and for
explanations. It also asks for tables, and for what changes between two files. The status is 1 if something differs.
"""

import argparse
import subprocess
import sys
import tempfile
from pathlib import Path

import top  # noqa: F401
from reference import expiry, route_lines, slurm, vrp_files
from reference.faults import Fault
from reference.prefixes import Vrp
from reference.random_vrps import Maker
from rows import CRATES, Comparison

PROGRAM = CRATES / "origins" / "out" / "origins"
FILES = 20


def run(program: Path, words: list[str | Path], lines: bytes = b"") -> tuple[int, list[str], str]:
    """Runs the program. Returns its status, its lines and its standard error."""
    done = subprocess.run([program, *words], input=lines, capture_output=True, check=False)
    printed = done.stdout.decode("utf-8").split("\n")
    return done.returncode, printed[:-1] if printed[-1] == "" else printed, done.stderr.decode("utf-8")


def table(vrps: list[Vrp]) -> list[Vrp]:
    """Returns the VRPs in order, each once."""
    return sorted(set(vrps), key=lambda one: (*one.prefix.key(), one.asn))


def answer(line: bytes, vrps: list[Vrp], why: bool) -> str:
    """Returns the reference's answer to a line."""
    try:
        return route_lines.answer(vrps, line.decode("utf-8"), why)
    except UnicodeDecodeError:
        return "error: not UTF-8"


def counted(vrps: list[Vrp]) -> str:
    """Returns the number of VRPs in words."""
    return "1 VRP" if len(vrps) == 1 else f"{len(vrps)} VRPs"


def text(vrp: Vrp) -> str:
    """Returns a VRP as the program prints it."""
    return f"{vrp.prefix.text()} AS{vrp.asn}"


class Questions(Comparison):
    """Asks the program, and compares its answers."""

    def __init__(self, program: Path, folder: Path, maker: Maker) -> None:
        super().__init__()
        self.program, self.folder, self.maker = program, folder, maker

    def kept(self, name: str, octets: bytes) -> Path:
        """Writes a file of these octets. Returns its path."""
        path = self.folder / name
        path.write_bytes(octets)
        return path

    def routes(self, count: int) -> None:
        """Asks lines of routes by a file, with and without an explanation."""
        vrps = [self.maker.vrp() for _ in range(self.maker.random.choice((1, 5, 40, 200)))]
        file = self.kept("vrps", self.maker.file(vrps))
        listed = vrp_files.read(file.read_bytes())
        lines = [self.maker.line() for _ in range(count)]
        octets = b"\n".join(lines) + b"\n"
        for why in (False, True):
            status, answers, said = run(self.program, ["--why", file] if why else [file], octets)
            self.add("a run", (0, f"origins: {counted(listed)}\n", count), (status, said, len(answers)))
            for line, found in zip(lines, answers, strict=False):
                self.add(repr(line), answer(line, listed, why), found)
        words = {answer(line, listed, False).split("-")[0].split(":")[0] for line in lines}
        wanted = 3 if words & {"invalid", "error"} else 0
        status, _, _ = run(self.program, ["--check", file], octets)
        self.add("a check", wanted, status)
        for why in (False, True):
            status, answers, said = run(self.program, ["--check", "--json", *(["--why"] if why else []), file], octets)
            self.add("a run", (wanted, f"origins: {counted(listed)}\n", count), (status, said, len(answers)))
            for line, found in zip(lines, answers, strict=False):
                self.add(repr(line), route_lines.json_answer(listed, line, why), found)
        self.checks(file, listed, lines)

    def checks(self, file: Path, listed: list[Vrp], lines: list[bytes]) -> None:
        """Asks for a check of one line alone, because most runs of many lines find something."""
        for line in lines[:20]:
            wanted = 3 if answer(line, listed, False).startswith(("invalid", "error")) else 0
            for form in ([], ["--json"]):
                self.add(f"a check of {line!r}", wanted, run(self.program, ["--check", *form, file], line)[0])

    def several(self, count: int) -> None:
        """Asks lines of routes by several files, and with the exceptions of a SLURM file."""
        maker = self.maker
        files, listed, numbers = [], [], []
        for at in range(maker.random.choice((1, 2, 3))):
            vrps = [maker.vrp() for _ in range(maker.random.choice((1, 5, 40)))]
            files.append(self.kept(f"several-{at}", maker.file(vrps)))
            listed += vrp_files.read(files[-1].read_bytes())
            numbers.append(f"{len(vrps)} in {files[-1]}")
        words = [word for file in files[1:] for word in ("--vrps", file)] + files[:1]
        numbers = numbers[1:] + numbers[:1]
        said = f"origins: {counted(listed)}" + (": " + ", ".join(numbers) if len(files) > 1 else "")
        exceptions = self.kept("exceptions", maker.slurm())
        if maker.one_in(2):
            words += ["--slurm", exceptions]
            try:
                listed = slurm.read(exceptions.read_bytes()).applied(listed)
                said += f"; {len(listed)} after {exceptions}"
                refused = "" if listed else f"no VRP left after {exceptions}"
            except Fault as fault:
                refused = f"{exceptions}: {fault}"
            if refused:
                wanted = (1, [], f"origins: {refused}\n")
                self.add(repr(exceptions.read_bytes()), wanted, run(self.program, ["--table", *words]))
                self.add(repr(exceptions.read_bytes()), wanted, run(self.program, words, b"10.0.0.0/8 AS1\n"))
                return
        status, found, told = run(self.program, ["--table", *words])
        wanted = (0, said + "\n", [text(one) for one in table(listed)])
        self.add("a table of several files", wanted, (status, told, found))
        lines = [maker.line() for _ in range(count)]
        status, answers, told = run(self.program, ["--why", *words], b"\n".join(lines) + b"\n")
        self.add("a run by several files", (0, said + "\n", count), (status, told, len(answers)))
        for line, found in zip(lines, answers, strict=False):
            self.add(repr(line), answer(line, listed, True), found)

    def expired(self) -> None:
        """Asks for the VRPs that are valid at a time."""
        vrps = [self.maker.vrp() for _ in range(self.maker.random.choice((1, 5, 40)))]
        file, now = self.kept("dated", self.maker.dated(vrps)), self.maker.random.randint(995, 1005)
        try:
            kept, expired = expiry.unexpired(file.read_bytes(), now)
            wanted = (0, [text(one) for one in table(kept)], f"origins: {counted(vrps)}; {expired} expired\n")
            if not kept:
                wanted = (1, [], f"origins: no VRP left: {expired} of {len(vrps)} expired\n")
        except Fault as fault:
            wanted = (1, [], f"origins: {file}: {fault}\n")
        self.add(repr(file.read_bytes()), wanted, run(self.program, ["--table", "--now", str(now), file]))

    def tables(self) -> None:
        """Asks for tables, and for what changes between two files."""
        maker = self.maker
        shared = [maker.vrp() for _ in range(30)]
        before = shared + [maker.vrp() for _ in range(maker.random.randrange(20))] + shared[:3]
        after = shared[5:] + [maker.vrp() for _ in range(maker.random.randrange(20))]
        old, new = self.kept("old", maker.file(before)), self.kept("new", maker.file(after))
        status, found, said = run(self.program, ["--table", old])
        self.add("a table", (0, f"origins: {counted(before)}\n"), (status, said))
        self.add("a table", [text(one) for one in table(before)], found)
        asn = maker.asn()
        _, found, _ = run(self.program, ["--table", "--of", f"AS{asn}", old])
        self.add("a table of an AS", [text(one) for one in table(before) if one.asn == asn], found)
        withdrawn, announced = set(before) - set(after), set(after) - set(before)
        changes = [f"withdraw {text(one)}" for one in table(withdrawn)]
        changes += [f"announce {text(one)}" for one in table(announced)]
        status, found, said = run(self.program, ["--diff", old, new])
        self.add("a change", (0, f"origins: {counted(before)} in {old}, {len(after)} in {new}\n"), (status, said))
        self.add("a change", changes, found)

    def wrong(self) -> None:
        """Asks for the table of a file that may be wrong."""
        vrps = [self.maker.vrp() for _ in range(5)]
        file = self.kept("wrong", self.maker.wrong(vrps))
        try:
            expected = (0, [text(one) for one in table(vrp_files.read(file.read_bytes()))])
            self.add(repr(file.read_bytes()), expected, run(self.program, ["--table", file])[:2])
        except Fault as fault:
            wanted = (1, [], f"origins: {file}: {fault}\n")
            self.add(repr(file.read_bytes()), wanted, run(self.program, ["--table", file]))


def main() -> int:
    """Reads the options and compares."""
    parser = argparse.ArgumentParser(description=__doc__.splitlines()[0])
    parser.add_argument("seed", type=int)
    parser.add_argument("count", type=int, help="how many lines of routes")
    options = parser.parse_args()
    if not PROGRAM.exists():
        sys.exit("random_origins.py: origins is not built")
    with tempfile.TemporaryDirectory() as folder:
        comparison = Questions(PROGRAM, Path(folder), Maker(options.seed))
        for _ in range(FILES):
            comparison.routes(options.count // FILES)
            comparison.several(options.count // FILES // 4 + 1)
            comparison.tables()
            for _ in range(10):
                comparison.wrong()
                comparison.expired()
    return 0 if comparison.report(f"origins, seed {options.seed}") else 1


if __name__ == "__main__":
    sys.exit(main())
