# refused at run: no resources
import sys
from pigyelund import Resources

sys.exit(None if Resources() else "no resources")
