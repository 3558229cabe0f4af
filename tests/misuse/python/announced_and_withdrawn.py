# refused at compile: Too many positional arguments
from pigyelund import Table, Vrp

Table().with_changes([], [Vrp("10.0.0.0/8 AS64496")])
