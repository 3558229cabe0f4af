#!/usr/bin/env python3
"""foreign_rows.py [FOLDER]: makes rows.txt, the golden tests of the packages for C, Rust and Python, by the reference.

FOLDER is out/foreign if none is named. The script copies foreign/numbers.txt and foreign/texts.txt there too.

A row has nine words with spaces between them. Octets are in hexadecimal. A word without octets is `-`.

1. The first word is the call and its numbers, joined by commas.
2. The second to the fifth word are the input.
3. The sixth word is the status.
4. The seventh and the eighth word are the output.
5. The last word is a count, an index, the number of a line or item, an answer, or `-`. It depends on the call.

The input and the output depend on the call:

* `verify` and the calls on two sets: a set or a certificate is two words, its AS extension and its IP extension. The
  output is a set. With a status of overclaimed resources the output is these resources.
* `contains` and `equal`: two sets. The last word is 1 for yes and 0 for no.
* `contains_asn`: a set. The AS number is the second number. The last word is 1 or 0.
* `contains_prefix`: a set, and a prefix of 18 octets: an address, a family and a length. The last word is 1 or 0.
* `print`: a set. The output is the text of one kind of its resources.
* `path`: the anchor's set, the octets of all extensions, and the certificates. A certificate is six numbers. The last
  word is the number of certificates that are verified.
* `cover`: the octets of an IP extension. The output has each prefix's address and length.
* `as_ranges` and `ip_ranges`: the octets of an extension. The output has two numbers for each range. A number has 4
  octets for AS numbers and 16 for addresses.
* `origins`: VRPs of 23 octets each, and routes of 22 octets each. Both have an address, an AS number, a family and a
  length. A VRP also has a maximum length. The output is the validity of each route, and the reason why it is invalid.
  The last word is the index of the first VRP or route that is invalid.
* `covering`: the VRPs of a table, and a route. The output has 24 octets for each VRP that covers the route. The last
  octet says why the VRP does not match.
* `vrps`: the VRPs of a table. The output is the same VRPs in the order of a table.
* `changed`: the VRPs of a table, the announced VRPs and the withdrawn VRPs. The output is all VRPs of the next table.
* `differ`: the VRPs of two tables, and routes. The output is 1 for each route whose validity differs, and 0 for any
  other route.
* `changes`: the VRPs of two tables. The output is the VRPs that only the second table has, and those that only the
  first has.
* `read`: a file of VRPs. The output is its VRPs. The last word is the number of the first line or item that is invalid.
* `unexpired`: a file of VRPs. The two numbers are the upper and the lower half of the time. The output is the VRPs that
  have not expired. The last word is the number of expired VRPs, or of the first line or item that is invalid.
* `slurm`: a SLURM file, and VRPs. The output is the VRPs after its filters and assertions. The last word is the index
  of the first invalid VRP, or the number of the invalid item or unknown member of the file.
* `text`: a list of resources as text. The output is a set.
* `routes`: lines with routes. The output is the routes. The last word is the number of the first line that is invalid.
* `vrp_from_text` and `route_from_text`: a text. The output is the VRP or the route.
* `vrp_text` and `route_text`: a VRP or a route. The output is its text.
* `answer`: a line for `respath`. The output is the line that it prints, unless this is an error.
"""

import shutil
import sys
from collections.abc import Iterable, Iterator
from itertools import islice
from pathlib import Path

from top import TOP
from reference.calls_from_c import answer
from reference.questions_from_c import questions


def hexadecimal(octets: bytes) -> str:
    """Returns octets as a word of a row."""
    return octets.hex() or "-"


def joined(parts: Iterable[object], by: str) -> str:
    """Returns parts as one word of a row."""
    return by.join(map(str, parts)) or "-"


def rows() -> Iterator[str]:
    """Yields the rows of the file."""
    for question in questions():
        found = answer(question)
        words = [question.call, joined(question.numbers, ","), *map(hexadecimal, (*question.first, *question.second))]
        if question.call == "path":
            words[-1] = joined((joined(place, ":") for place in question.places), ";")
        verified = "-" if found.verified is None else str(found.verified)
        yield " ".join((*words, str(found.status), *map(hexadecimal, found.written), verified))


def write(folder: Path, count: int | None = None) -> None:
    """Writes the rows into a folder, or only this number of them, beside the numbers and the texts of foreign/."""
    folder.mkdir(parents=True, exist_ok=True)
    (folder / "rows.txt").write_text("".join(f"{row}\n" for row in islice(rows(), count)))
    for name in ("numbers.txt", "texts.txt"):
        shutil.copy(TOP / "foreign" / name, folder)


if __name__ == "__main__":
    write(Path(sys.argv[1]) if sys.argv[1:] else TOP / "out" / "foreign")
