# refused at run: no subset
import sys
from pigyelund import Resources

# Of two tuples of octets the first is the less.
issuer, claim = Resources.from_text(v4="12.0.0.0/8"), Resources.from_text(v4="10.0.0.0/8")
sys.exit(None if claim <= issuer else "no subset")
