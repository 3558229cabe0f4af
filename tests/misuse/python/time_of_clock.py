# refused at compile: [arg-type]
import sys
import time
from pigyelund import read_unexpired_vrps

# time.time() is no whole number.
sys.exit(None if read_unexpired_vrps(b"AS64496,10.0.0.0/8,8\n", time.time()).vrps else 1)
