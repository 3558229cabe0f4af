"""Tests of what docs/PYTHON.md and the docstrings say, and of the example dump.py. `test.py` runs them.

Each test yields a text for each fault.
"""

import os
import re
import shutil
import subprocess
import sys
import tempfile
from collections.abc import Callable, Iterator
from ipaddress import IPv4Network
from pathlib import Path
from typing import Any

from pigyelund import (
    Asn,
    Extensions,
    OriginError,
    Resources,
    Route,
    RouteTextError,
    Status,
    Table,
    Validity,
    Vrp,
    _library,
    apply_slurm_octets,
    read_octets,
    read_routes,
    read_unexpired_vrps,
    validate_routes,
)
from spies import spied
from test_slurm import EMPTY

PACKAGE = Path(__file__).resolve().parents[1]
PAGE, HEADER = PACKAGE.parents[1] / "docs" / "PYTHON.md", PACKAGE.parent / "pigyelund.h"
TEN = IPv4Network("10.0.0.0/8")
# The last VRP has expired at TIME.
VRPS = "ASN,IP Prefix,Max Length,Expires\nAS64496,192.0.2.0/23,24,\nAS64497,2001:db8::/32,48,8\nAS64500,10.0.0.0/8,8,7"
TIME = 8
# The lines of `bgpdump -m`, each with the origin and the validity that dump.py prints for it.
DUMP = [
    ("TABLE_DUMP2|1|B|203.0.113.1|64500|192.0.2.0/24|64500 64496|IGP|203.0.113.1|0|0||NAG||", "64496,valid"),
    ("TABLE_DUMP2_AP|2|B|203.0.113.1|64500|192.0.2.0/24|64496|64500 64511|IGP|203.0.113.1|0|0||NAG||", "64511,invalid"),
    ("TABLE_DUMP|3|B|203.0.113.1|64500|10.0.0.0/8|64500|IGP|203.0.113.1|0|0||NAG||", "64500,not-found"),
    ("BGP4MP_ET|4|A|203.0.113.1|64500|192.0.3.0/24|64500 {64496,64497}|IGP|203.0.113.1|0|0||NAG||", "0,invalid"),
    ("BGP4MP|5|W|203.0.113.1|64500|192.0.3.0/24", ","),
    ("BGP4MP|6|STATE|203.0.113.1|64500|6|1", ","),
    ("TABLE_DUMP2|7|B|203.0.113.4|64512|192.0.3.0/24|(64512 64513)|IGP|203.0.113.4|0|0||NAG||", "0,invalid"),
    ("TABLE_DUMP2|8|B|203.0.113.4|64512|192.0.3.0/24|64500 [64512,64513]|IGP|203.0.113.4|0|0||NAG||", "0,invalid"),
    ("TABLE_DUMP2|9|B|0.0.0.0|0|192.0.2.0/23||IGP|0.0.0.0|0|0||NAG||", "0,invalid"),
    ('TABLE_DUMP2|10|B|2001:db8::1|64500|2001:db8::/48|64500 64497|IGP|"2001:db8::1|0|0|64500:1|AG||', "64497,valid"),
]
WRONG = "TABLE_DUMP2|11|B|203.0.113.1|64500|192.0.2.1/24|64500 64496|IGP|203.0.113.1|0|0||NAG||", "64496,malformed"


def dump(_: Path) -> Iterator[str]:
    """The example dump.py has a row for each line that is no STATE. Its routes are those of `read_routes`."""
    if subprocess.run([sys.executable, "-c", "import pandas"], capture_output=True, check=False).returncode:
        print("left out: the example dump.py needs pandas")
        return
    paths = {"PYTHONPATH": str(PACKAGE / "src"), "PIGYELUND_LIB": os.path.dirname(_library._loaded._name)}
    words = [sys.executable, str(PACKAGE / "examples" / "dump.py"), "vrps", str(TIME)]
    with tempfile.TemporaryDirectory() as folder, Table.read_unexpired(VRPS.encode(), TIME) as table:
        Path(folder, "vrps").write_text(VRPS)
        given: list[list[tuple[str, str]]] = [[*DUMP, WRONG], DUMP[4:6], []]
        for cases in given:
            run = subprocess.run(
                words, cwd=folder, env=os.environ | paths, input="".join(f"{line}\n" for line, _ in cases),
                capture_output=True, text=True, check=False,
            )  # fmt: skip
            fields = ((line.split("|"), end) for line, end in cases)
            wanted = [f"{','.join(it[1:6])},{end}" for it, end in fields if it[2] != "STATE"]
            if run.stdout.splitlines() != ["time,type,peer,peer_as,prefix,origin,validity", *wanted]:
                yield f"dump.py: {run.stdout}{run.stderr}"
        for line, end in DUMP:
            found = [f"{int(it.asn)},{table.validate(it)}" for it in read_routes(line.encode())]
            if found != [it for it in (end,) if it != ","]:
                yield f"{found} of {line}"


def certificate(_: Path) -> Iterator[str]:
    """The block of the page for `cryptography` reads both extensions of a certificate of OpenSSL."""
    has_it = subprocess.run([sys.executable, "-c", "import cryptography"], capture_output=True, check=False)
    if has_it.returncode or not shutil.which("openssl"):
        print("left out: extensions of a certificate need cryptography and openssl")
        return
    (block,) = re.findall(r"^```python\n(from cryptography .*?)^```$", PAGE.read_text(), re.MULTILINE | re.DOTALL)
    words = "openssl req -x509 -newkey rsa:2048 -nodes -keyout key.pem -subj /CN=a -outform DER -out authority.cer"
    of_ip, of_as = "sbgp-ipAddrBlock=critical,IPv4:10.0.0.0/8", "sbgp-autonomousSysNum=critical,AS:64496-64511"
    both = Resources.from_text(asn="64496-64511", v4="10.0.0.0/8").der()
    wanted = [([of_ip, of_as], both), ([of_ip], Extensions(None, both.ip)), ([of_as], Extensions(both.asn))]
    program = [sys.executable, "-c", f"{block}\nprint(extensions)"]
    environment = os.environ | {"PYTHONPATH": str(PACKAGE / "src")}
    with tempfile.TemporaryDirectory() as folder:
        for given, extensions in wanted:
            more = [word for it in given for word in ("-addext", it)]
            subprocess.run([*words.split(), *more], cwd=folder, capture_output=True, check=True)
            run = subprocess.run(program, cwd=folder, env=environment, capture_output=True, text=True, check=False)
            if run.stdout != f"{extensions}\n":
                yield f"{run.stdout}{run.stderr} of a certificate with {given}"


def calls_of(ask: Callable[[], object]) -> set[str]:
    """Returns the calls of the library that a function makes, except for those that free."""
    names: set[str] = set()

    def around(name: str, call: Callable[..., Any], words: tuple[Any, ...]) -> Any:
        names.add(name)
        return call(*words)

    with spied(around):
        ask()
    return {it for it in names if not it.endswith("_free")}


def memory(_: Path) -> Iterator[str]:
    """The docstrings name the calls for which the library takes memory, or takes none, as the header lists them."""
    text = re.sub(r"\s+\*\s+", " ", HEADER.read_text())
    (listed,) = re.findall(r"These calls take no memory: (.*?)\. Any other call may", text)
    free = {*re.findall(r"pigy_\w+", listed)}
    vrp, route, one, two = Vrp(TEN, 1), Route(TEN, 1), Resources([TEN]), Resources([TEN, Asn(1)])
    file = b"AS1,10.0.0.0/8,8\n"
    with Table([vrp]) as table:
        of_tables: dict[str, Callable[[], object]] = {
            "Table": lambda: Table([vrp]),
            "read": lambda: Table.read(file),
            "read_unexpired": lambda: Table.read_unexpired(file, 1),
            "with_changes": lambda: table.with_changes(),
            "changes": lambda: table.changes(table),
            "covering": lambda: table.covering(route),
            "covering_octets": lambda: table.covering_octets([route]),
            "octets": lambda: table.octets(),
            "in": lambda: vrp in table,
            "iteration": lambda: [*table],
            "len": lambda: len(table),
            "validate": lambda: table.validate(route),
            "reason": lambda: table.reason(route),
            "validate_routes": lambda: table.validate_routes([route]),
            "validate_octets": lambda: table.validate_octets([route]),
            "revalidate": lambda: table.revalidate(table, [route]),
            "revalidate_octets": lambda: table.revalidate_octets(table, [route]),
        }
        found = {name for name, ask in of_tables.items() if calls_of(ask) - free}
    said = re.findall(r"These calls may raise `OutOfMemoryError`: (.*?)\. ", " ".join((Table.__doc__ or "").split()))
    if [{*re.findall(r"\w+", it)} - {"and"} for it in said] != [found]:
        yield f"{found} take memory, and the docstring of Table says {said}"
    of_sets: dict[str, Callable[[], object]] = {
        "in": lambda: (Asn(1) in one, TEN in one, vrp in one, two in one),
        "<=": lambda: one <= two,
        "<": lambda: one < two,
        ">=": lambda: one >= two,
        ">": lambda: one > two,
        "==": lambda: one == two,
        "|": lambda: one | two,
        "&": lambda: one & two,
        "-": lambda: one - two,
        "^": lambda: one ^ two,
    }
    found = {name for name, ask in of_sets.items() if not calls_of(ask) - free}
    said = re.findall(r"The operators ([^.]*) take no memory", Resources.__doc__ or "")
    if [{*re.findall(r"`(.*?)`", it)} for it in said] != [found]:
        yield f"{found} take no memory, and the docstring of Resources says {said}"


def statuses(_: Path) -> Iterator[str]:
    """The docstring of `Status` has no name of the header that the package lacks."""
    text = Status.__doc__ or ""
    others = {*re.findall(r"\b[A-Z][A-Z_0-9]+\b", text)} - {it.name for it in Status}
    if others - {"AS", "CSV", "IP", "JSON", "RFC", "SLURM", "V4", "V6", "VRP"} or "pigy_" in text or "above)" in text:
        yield f"the docstring of Status names {others}"


def files_and_lines(_: Path) -> Iterator[str]:
    """The octets of two files make one table. Lines that are read one by one lose the malformed ones alone."""
    csv, json = b"AS1,10.0.0.0/8,8\n", b'{"roas": [{"asn": 2, "prefix": "10.0.0.0/8", "maxLength": 9}]}'
    with Table(read_octets(csv) + read_octets(json)) as table:
        if {*table} != {Vrp(TEN, 1), Vrp(TEN, 2, 9)}:
            yield f"{[*table]} of two files"
    dated = b"ASN,IP Prefix,Max Length,Expires\nAS1,10.0.0.0/8,8,5\nAS2,10.0.0.0/8,9,9\n"
    with Table.read_unexpired(dated, 7) as table:
        unexpired = table.octets()
        if apply_slurm_octets(EMPTY, unexpired) != b"".join(map(bytes, read_unexpired_vrps(dated, 7).vrps)):
            yield "unexpired VRPs before a SLURM file"
    if validate_routes([], [Route(TEN, 1)]) != [Validity.NOT_FOUND]:
        yield "a route without a table"
    lines = b"10.0.0.0/8 AS1\r\n\nno route\n10.0.0.0/8\rAS2\n10.0.0.0/8 AS3\n"
    found, faults = [], []
    for at, line in enumerate(lines.split(b"\n"), 1):
        try:
            found += read_routes(line)
        except RouteTextError:
            faults.append(at)
    if (found, faults) != ([Route(TEN, 1), Route(TEN, 3)], [3, 4]):
        yield f"{found} and the malformed lines {faults}"
    for whole, at in ((lines, 2), (lines.replace(b"\n\n", b"\n"), 2)):
        try:
            yield f"{read_routes(whole)} of malformed lines"
        except RouteTextError as reason:
            if reason.line != at:
                yield f"{reason!r} in place of line {at}"


def dtypes(_: Path) -> Iterator[str]:
    """The calls of arrays refuse another dtype, and what is no array of numpy. A malformed row ends `revalidate`."""
    try:
        import numpy
    except ImportError:
        print("left out: dtypes need numpy")
        return
    from array import array

    from pigyelund import arrays

    vrps, asked = arrays.vrps(b"AS1,10.0.0.0/8,8\n"), arrays.routes(["10.0.0.0/8", "10.0.0.1/8"], [1, 1])
    packed = numpy.dtype([(name, arrays.ROUTE[name]) for name in arrays.ROUTE.names])
    others: list[Any] = [array("q", [1, 2, 3]), numpy.array([1, 2, 3]), numpy.zeros(1, "V24"), [Route(TEN, 1)]]
    others += [bytes(Route(TEN, 1)), asked.astype(packed), asked.astype(arrays.ROUTE.newbyteorder()), None]
    with Table(vrps) as table:
        calls: list[tuple[Callable[[Any], object], Any, str]] = [
            (lambda it: arrays.validate(table, it), vrps, "asked: an array of VRP is no array of ROUTE"),
            (lambda it: arrays.covering(table, it), vrps, "asked: an array of VRP is no array of ROUTE"),
            (lambda it: arrays.apply_slurm(EMPTY, it), asked, "given: an array of ROUTE is no array of VRP"),
        ]
        for call, last, text in calls:
            for given in [*others, last]:
                try:
                    yield f"{call(given)} of {given!r}"
                except TypeError as reason:
                    said = str(reason)
            if said != text:
                yield f"{said} in place of {text}"
        for view in (asked, asked[::-1][::-1], asked.view(numpy.recarray)):
            if arrays.validate(table, view).tolist() != [0, 255]:
                yield f"the validities of {view!r}"
        if (arrays.validate(table, asked) == Validity.VALID.value).tolist() != [True, False]:
            yield "a valid route has another number than Validity.VALID.value"
        for again in (table.revalidate, table.revalidate_octets):
            try:
                yield f"{again(table, asked)!r} of a malformed row"
            except OriginError as refused:
                if refused.index != 1:
                    yield f"{refused!r}"


OF_PAGES = (dump, certificate, memory, statuses, files_and_lines, dtypes)
