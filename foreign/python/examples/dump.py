"""Validates the routes of a dump, with the time and peer of each line: bgpdump -m FILE | dump.py VRPS TIME.

VRPS is the file of a validator. The program leaves out the VRPs that expired before TIME, the time of the dump in
seconds since 1970. It prints the DataFrame as CSV. A withdrawal (`W`) has no origin and no validity. `STATE` lines have
no prefix, and are left out. The origin is the last AS of the path. It is AS 0 if the path ends in an AS_SET or a
confederation segment, or is empty, as in `read_routes`. The DataFrame has all lines at once: pass large dumps in parts.
"""

import sys
from pathlib import Path

import pandas

from pigyelund import NO_VALIDITY, Table, Validity, arrays

COLUMNS = ["kind", "time", "type", "peer", "peer_as", "prefix", "path", "path_of_ap"]
NAMES = {it.value: str(it) for it in Validity} | {NO_VALIDITY: "malformed"}

# The number of fields differs from line to line. Each row has the first eight.
cells = ((line.rstrip("\n") + "|" * 8).split("|", 8)[:8] for line in sys.stdin)
lines = pandas.DataFrame((it for it in cells if it[2] != "STATE"), columns=COLUMNS)
routes = lines[lines["type"] != "W"]
# A line of a kind such as TABLE_DUMP2_AP has a path identifier before the path.
path = routes["path"].where(~routes["kind"].str.endswith("_AP"), routes["path_of_ap"])
origin = path.str.strip().str.rsplit(" ", n=1).str[-1]
origin = origin.mask(origin.str.contains(r"^$|[])}]$"), "0")
with Table.read_unexpired(Path(sys.argv[1]).read_bytes(), int(sys.argv[2])) as table:
    validities = arrays.validate(table, arrays.routes(routes["prefix"], origin))
lines["origin"] = origin
lines["validity"] = pandas.Series(validities, routes.index).map(NAMES)
print(lines[["time", "type", "peer", "peer_as", "prefix", "origin", "validity"]].to_csv(index=False), end="")
