# refused at run: TypeError
import sys
from pigyelund import Route, Table

# The number of VALID is 0, and an invalid route has another one.
sys.exit(None if Table().validate(Route("10.0.0.0/8 AS1")) else 1)
