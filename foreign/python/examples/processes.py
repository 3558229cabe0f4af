"""Validates files of routes in several processes: processes.py VRPS ROUTES ..

Each process makes a table of its own from the file VRPS. Prints how many routes of each file are valid, not found and
invalid.
"""

import sys
from collections import Counter
from concurrent.futures import ProcessPoolExecutor
from multiprocessing import get_context
from pathlib import Path

from pigyelund import Table, Validity, read_route_octets

tables: list[Table] = []  # each process makes its own table


def make_table(file: str) -> None:
    """Makes the table of this process."""
    tables.append(Table.read(Path(file).read_bytes()))


def count(file: str) -> Counter[int]:
    """Returns how many routes of a file have each validity. The keys are the numbers of the validities."""
    return Counter(tables[0].validate_octets(read_route_octets(Path(file).read_bytes())))


# A process that is started by `spawn` imports this file, and does not run these lines.
if __name__ == "__main__":
    vrps, *routes = sys.argv[1:]
    with ProcessPoolExecutor(mp_context=get_context("spawn"), initializer=make_table, initargs=(vrps,)) as pool:
        for file, counts in zip(routes, pool.map(count, routes)):
            print(file, ", ".join(f"{counts[it.value]} {it}" for it in Validity))
