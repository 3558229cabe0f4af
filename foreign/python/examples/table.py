"""Reads the file of a validator, says why a route is invalid, and makes the next table: table.py <FILE."""

import sys

from pigyelund import ChangeError, Mismatch, Route, Table, Vrp, read_vrps

vrps = read_vrps(sys.stdin.buffer.read())
route = Route("10.1.2.0/24 AS64497")
with Table(vrps) as table:
    print(table.validate(route), table.reason(route), len(table))
    for it in table.covering(route):
        print(it.vrp, Mismatch.OTHER_AS in it.mismatch, Mismatch.TOO_LONG in it.mismatch)
    # The next table: the first VRP is withdrawn, and `fresh` is announced.
    fresh = Vrp("10.1.0.0/16-24 AS64497")
    with table.with_changes(announced=[fresh], withdrawn=vrps[:1]) as following:
        print(following.validate(route), [str(it) for it in following])
        # What differs between the tables, and the index of each route whose validity differs.
        print(table.changes(following), table.revalidate(following, [route]))
        try:
            following.with_changes(announced=[fresh])
        except ChangeError as refused:
            print(refused)
