#!/usr/bin/env python3
"""foreign_dask.py LIBRARY: tests the section "More than one machine" of docs/PYTHON.md.

A scheduler and one or two workers of Dask run the two programs of the section. They are processes of this machine.
LIBRARY is the folder of the shared library. With the files of the section "Many routes", in one partition and in
several, the program has to print what the page shows, and each worker has to make the table at most once. The test
needs Debian's python3-distributed, and is left out by name without it. The status is 1 if something differs.
"""

import os
import re
import subprocess
import sys
import tempfile
import time
from collections.abc import Iterator
from contextlib import contextmanager
from pathlib import Path

from top import TOP
from blocks import blocks_of, told

PAGE, FILES_TITLE, TITLE = "docs/PYTHON.md", "## Many routes", "## More than one machine"
SYSTEM = "/usr/bin/python3"  # Debian's packages are for this Python
# Prints how often each worker process made a table.
MISSES = """
import sys
from dask.distributed import Client

def misses():
    import part_of_routes
    return part_of_routes.read_table.cache_info().misses

with Client(sys.argv[1]) as client:
    print(*client.run(misses).values())
"""


def write_files(folder: Path) -> str:
    """Writes the programs, the VRPs and the routes into a folder. Returns what the page shows for them."""
    blocks = blocks_of(PAGE, TITLE)
    for block in (it for it in blocks if it.kind.startswith("python ")):
        (folder / block.kind.removeprefix("python ")).write_text(block.text)
    (folder / "misses.py").write_text(MISSES)
    commands = "".join(it.text for it in blocks_of(PAGE, FILES_TITLE) if it.kind == "sh")
    files = dict(re.findall(r"^cat >(\S+) <<END\n(.*?)^END$", commands, re.MULTILINE | re.DOTALL))
    (folder / "csv").write_text(files["vrps.csv"])
    routes = (line.split(",") for line in files["routes.csv"].splitlines()[1:-2])  # without the malformed ones
    (folder / "routes").write_text("".join(f"{prefix} AS{asn.removeprefix('AS')}\n" for prefix, asn in routes))
    return next(it.shown for it in blocks if "python3 validate_routes.py " in it.text)


@contextmanager
def cluster(folder: Path, environment: dict[str, str], count: int) -> Iterator[str]:
    """Starts a scheduler and some workers. Yields the address of the scheduler, and ends all processes afterwards."""
    address, log = folder / f"scheduler-{count}.json", folder / f"dask-{count}.log"
    words = ["dask-scheduler", "--host", "127.0.0.1", "--port", "0"]
    started: list[subprocess.Popen[bytes]] = []
    with log.open("w") as out:
        try:
            for own in (words, *[["dask-worker", "--nthreads", "1", "--no-nanny"]] * count):
                own = [SYSTEM, f"/usr/bin/{own[0]}", *own[1:], "--no-dashboard", "--scheduler-file", str(address)]
                started.append(subprocess.Popen(own, cwd=folder, env=environment, stdout=out, stderr=out))
            text = ""
            for _ in range(600):
                text = address.read_text() if address.exists() else ""
                if text.endswith("}") and log.read_text().count("Registered to:") >= count:
                    break
                time.sleep(0.1)
            yield re.findall(r'"address": "([^"]*)"', text)[0]
        finally:
            for it in reversed(started):
                it.kill()  # a worker can take a minute to end by SIGTERM, and keeps nothing outside of the folder
                it.wait()


def faults_of(folder: Path, environment: dict[str, str]) -> Iterator[str]:
    """Yields what differs with one and two workers."""
    shown = write_files(folder)

    def printed(*words: str) -> str:
        ran = subprocess.run([SYSTEM, *words], cwd=folder, env=environment, capture_output=True, text=True, timeout=600)
        return ran.stdout if ran.returncode == 0 else f"status {ran.returncode}: {ran.stderr}"

    for count in (1, 2):
        with cluster(folder, environment, count) as scheduler:
            files = scheduler, str(folder / "csv"), str(folder / "routes")
            for size in ("16MiB", "40B"):
                if (found := printed("validate_routes.py", *files, size)) != shown:
                    yield f"{count} workers, {size}: the page shows\n{shown}and the program prints\n{found}"
            misses = printed("misses.py", scheduler)
            if not {*misses.split()} <= {"0", "1"}:
                yield f"{count} workers: tables made by each worker: {misses}"


def main() -> int:
    """Tests the section."""
    if subprocess.run([SYSTEM, "-c", "import dask.bag, distributed"], capture_output=True).returncode:
        print("left out: routes in partitions by Dask need python3-distributed")
        return 0
    environment = os.environ | {"PIGYELUND_LIB": sys.argv[1], "PYTHONPATH": str(TOP / "foreign" / "python" / "src")}
    with tempfile.TemporaryDirectory() as folder:
        return told(faults_of(Path(folder), environment), "Dask: {} faults")


if __name__ == "__main__":
    sys.exit(main())
