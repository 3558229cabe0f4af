# refused at compile: [comparison-overlap]
import sys
from pigyelund import Route, Table

sys.exit(None if Table().validate(Route("10.0.0.0/8 AS1")) != 2 else 1)
