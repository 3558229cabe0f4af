# refused at compile: [arg-type]
import sys
from pigyelund import Route, Table, Validity, validate_routes

# The iteration over a table lists its VRPs, which are no tables.
sys.exit(None if validate_routes(Table(), [Route("10.0.0.0/8 AS1")]) != [Validity.INVALID] else 1)
