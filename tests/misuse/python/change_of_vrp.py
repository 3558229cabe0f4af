# refused at compile: read-only
from pigyelund import Asn, Vrp

vrp = Vrp("10.0.0.0/8 AS64496")
vrp.asn = Asn(64497)
