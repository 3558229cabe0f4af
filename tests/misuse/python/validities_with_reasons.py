# refused at compile: [comparison-overlap]
import sys
from pigyelund import Route, Table, Validity

# With reasons the call returns two lists, which never equal one list.
sys.exit(None if Table().validate_routes([Route("10.0.0.0/8 AS1")], reasons=True) != [Validity.INVALID] else 1)
