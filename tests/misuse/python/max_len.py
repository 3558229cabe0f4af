# refused at run: ValueError: max_len: 3 is not from 8 to 32
from pigyelund import Vrp

Vrp("10.0.0.0/8", 64496, max_len=3)
