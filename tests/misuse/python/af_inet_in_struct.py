# refused at run: OriginError
import socket
import struct
from pigyelund import Table, Vrp

route = struct.pack("16sIBBxx", bytes([10]), 64497, socket.AF_INET, 8)
Table([Vrp("10.0.0.0/8 AS64496")]).validate_octets(route)
