#!/usr/bin/env python3
"""foreign_rtr.py LIBRARY: tests foreign/rtr/client.c, which is linked with rtrlib and LIBRARY, against StayRTR.

StayRTR serves a file of VRPs. The file gets other VRPs, the cache goes away until the VRPs expire, and another cache
takes its place. Each time the client has to print the announced and withdrawn VRPs, and has to end up with the table of
the file. If its output fails, it has to end. The script names the tools that are missing. The status is 1 if something
differs.
"""

import json
import shutil
import socket
import subprocess
import sys
import tempfile
from collections.abc import Iterable
from contextlib import closing
from pathlib import Path
from random import Random
from threading import Timer
from typing import IO

from top import TOP
from blocks import told

SECONDS = 60  # for each step
SECOND = "1"  # of the intervals after which the client asks again, and connects again
EXPIRE = "4"  # seconds after which the VRPs of a cache that is gone expire
CLIENT = TOP / "foreign" / "rtr" / "client.c"


def free_port() -> int:
    """Returns a port of 127.0.0.1 on which nothing listens."""
    with closing(socket.create_server(("127.0.0.1", 0))) as server:
        port: int = server.getsockname()[1]
        return port


def made(random: Random, count: int) -> set[str]:
    """Returns VRPs of both families, as the client prints them."""
    found = {"192.0.0.0/2-2 AS0", "10.0.0.0/8-32 AS4294967295", "8000::/1-128 AS1", "2001:db8::1/128-128 AS2"}
    while len(found) < count:
        prefix = random.choice((f"10.{random.randrange(256)}.0.0/16", f"2001:db8:{random.randrange(1, 4096):x}::/48"))
        found.add(f"{prefix}-{random.choice((24, 32)) if '.' in prefix else 64} AS{random.randrange(1, 9)}")
    return found


def write(file: Path, vrps: Iterable[str]) -> None:
    """Writes VRPs to the file of StayRTR, which never sees a part of it."""
    rows = [vrp.replace("-", " ").split() for vrp in sorted(vrps)]
    roas = [{"prefix": prefix, "maxLength": int(most), "asn": asn, "ta": "t"} for prefix, most, asn in rows]
    new = file.with_suffix(".new")
    new.write_text(json.dumps({"metadata": {"buildtime": "2026-01-01T00:00:00Z"}, "roas": roas}))
    new.replace(file)


def started(port: int, file: Path) -> "subprocess.Popen[bytes]":
    """Starts StayRTR, which reads its file each second."""
    words = ["-bind", f"127.0.0.1:{port}", "-cache", str(file), "-checktime=false", "-refresh", SECOND]
    words += ["-protocol", "1", "-rtr.refresh", SECOND, "-rtr.retry", SECOND, "-rtr.expire", EXPIRE]
    words += ["-metrics.addr", f"127.0.0.1:{free_port()}", "-loglevel", "error"]
    return subprocess.Popen(["stayrtr", *words], stdout=subprocess.DEVNULL, stderr=subprocess.DEVNULL)


def table_after(lines: IO[str], table: set[str], wanted: set[str]) -> str | None:
    """Follows the changes that the client prints, until the table is the wanted one. Returns what is wrong."""
    for line in lines:
        sign, _, vrp = line.rstrip("\n").partition(" ")
        if vrp == "VRPs":
            if int(sign) != len(table):
                return f"{sign} VRPs in place of {len(table)}"
            if table == wanted:
                return None
        elif (vrp in table) == (sign == "+"):
            return f"{line.strip()!r} is no change"
        else:
            (table.add if sign == "+" else table.remove)(vrp)
    return f"the client ended, or {SECONDS} seconds passed: {sorted(table ^ wanted)[:5]} differ"


def without_output(words: list[str]) -> Iterable[str]:
    """Yields the outputs that fail, and after which the client goes on or says that it succeeded."""
    for to in (">/dev/full", ">&-", "2>&-"):
        command = ["timeout", str(SECONDS), "sh", "-c", f'exec "$0" "$@" {to}', *words]
        ran = subprocess.run(command, stdout=subprocess.DEVNULL, stderr=subprocess.DEVNULL)
        print(f"{'FAILED' if ran.returncode != 1 else 'ok':<7} the client ends with {to}")
        if ran.returncode != 1:
            yield f"{to}: status {ran.returncode}"


def steps(client: Path, folder: Path) -> Iterable[str]:
    """Takes the client through the steps. Yields what is wrong with the first step that fails."""
    port, file, random = free_port(), folder / "vrps.json", Random(1)
    first, second = made(random, 2000), made(random, 500)
    small = {*sorted(first)[:-1], "192.0.2.0/24-24 AS64496"}
    write(file, first)
    cache = started(port, file)
    words = [str(client), "127.0.0.1", str(port)]
    table: set[str] = set()
    none: set[str] = set()
    with subprocess.Popen(words, stdout=subprocess.PIPE, stderr=subprocess.DEVNULL, text=True) as process:
        assert process.stdout
        for step, wanted in (
            ("all are announced", first), ("one is announced, and one withdrawn", small),
            ("most are withdrawn", second), ("the cache goes away", none), ("another cache announces all", small),
        ):
            if not wanted:
                cache.terminate()
                cache.wait()
            elif wanted is not first:
                write(file, wanted)
            if not table and wanted is small:
                cache = started(port, file)
            late = Timer(SECONDS, process.kill)
            late.start()
            fault = table_after(process.stdout, table, wanted)
            late.cancel()
            print(f"{'FAILED' if fault else 'ok':<7} {step}")
            if fault:
                yield f"{step}: {fault}"
                break
        process.kill()
    yield from without_output(words)
    cache.kill()
    cache.wait()


def main() -> int:
    """Builds the client, and runs it against StayRTR."""
    found = subprocess.run(["gcc", "-E", "-include", "rtrlib/rtrlib.h", "-x", "c", "/dev/null"], capture_output=True)
    if found.returncode or not shutil.which("stayrtr"):
        print(f"left out: the RTR client needs {'librtr-dev' if found.returncode else 'stayrtr'}")
        return 0
    with tempfile.TemporaryDirectory() as name:
        built = Path(name) / "client"
        options = ["-std=c99", "-pedantic", "-O2", "-Wall", "-Wextra", "-Werror", f"-I{TOP / 'foreign'}"]
        subprocess.run(["gcc", *options, CLIENT, sys.argv[1], "-lrtr", "-lpthread", "-o", built], check=True)
        return told(steps(built, Path(name)), "steps of the RTR client: {} failed")


if __name__ == "__main__":
    sys.exit(main())
