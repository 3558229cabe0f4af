"""Calls with wrong arguments. `test_types.py` tests that mypy refuses each marked line, and no other line.

No program runs this file.
"""

import socket
from ipaddress import ip_network

from pigyelund import Asn, Certificate, Encoding, Extensions, Family, Mode, Resources, Route, Table, Validity, Vrp
from pigyelund import answer, apply_slurm, load, read_routes, read_unexpired_vrps, read_vrps, validate_routes

network = ip_network("10.0.0.0/8")
issuer, extensions = Resources(), Extensions(ip=b"")
vrp, route = Vrp(network, 1), Route(network, 1)
table = Table([vrp])

load(7)  # refused
load("libpigyelund.so", "lib")  # refused

Asn(None)  # refused
Asn(1.0)  # refused
Asn(b"1")  # refused
Vrp(None, 1)  # refused
Vrp(network, b"1")  # refused
Vrp(network, 1.0)  # refused
Vrp(network)  # refused
Vrp(network, None)  # refused
Vrp(network, 1, "9")  # refused
Vrp(network, 1, maxlen=9)  # refused
Route(b"\n", 1)  # refused
Route(network)  # refused
Route(network, 1.0)  # refused
Route(network, 1, 9)  # refused
vrp.asn = Asn(1)  # refused
vrp.max_len = 9  # refused
route.prefix = network  # refused
vrp < route  # refused
vrp < 1  # refused
Asn(1) < 2  # refused
Asn(1) + 1  # refused

Resources("300c")  # refused
Resources([1])  # refused
Resources(["10.0.0.0/8"])  # refused
Resources(ip=b"")  # refused
Resources.from_text(v4=network)  # refused
Resources.read(b"")  # refused
Resources.read(extensions, Encoding.STRICT)  # refused
Resources.read(extensions, encoding=Mode.TRIM)  # refused
Extensions("300c")  # refused
Extensions(*issuer)  # refused
Certificate(issuer)  # refused
Certificate(extensions, 1)  # refused
Certificate(extensions, Encoding.STRICT)  # refused

issuer.verify(issuer)  # refused
issuer.verify(b"")  # refused
issuer.verify(extensions, Mode.TRIM)  # refused
issuer.verify(extensions, mode=Encoding.STRICT)  # refused
issuer.verify(extensions, encoding=Mode.TRIM)  # refused
issuer.verify(extensions, mode=33)  # refused
issuer.verify(extensions, encoding=1)  # refused
issuer.verify(Certificate(extensions))  # refused
issuer.verify()  # refused
issuer.verify_path(Certificate(extensions))  # refused
issuer.verify_path([extensions])  # refused
issuer.verify_path([], Encoding.STRICT)  # refused
issuer | extensions  # refused
issuer & None  # refused
issuer - network  # refused
issuer + issuer  # refused
issuer <= extensions  # refused
issuer < (b"", b"")  # refused
1 in issuer  # refused
"10.0.0.0/8" in issuer  # refused
route in issuer  # refused
b"" in issuer  # refused
len(issuer)  # refused
[*issuer]  # refused
issuer[0]  # refused
issuer.prefixes(4)  # refused
issuer.prefixes(socket.AF_INET)  # refused
issuer.ranges(Encoding.STRICT)  # refused
answer(b"norm as 1")  # refused
read_vrps("vrps.csv")  # refused
read_unexpired_vrps(b"")  # refused
read_unexpired_vrps(b"", 1732600000.5)  # refused
read_routes("10.0.0.0/8 AS1")  # refused
apply_slurm("slurm.json", [vrp])  # refused
apply_slurm([vrp], b"")  # refused
apply_slurm(b"", [route])  # refused
apply_slurm(b"", table.changes(table))  # refused
apply_slurm(b"")  # refused

Table([route])  # refused
Table(None)  # refused
Table("vrps.csv")  # refused
Table([network])  # refused
Table(vrp)  # refused
Table.read("vrps.csv")  # refused
validate_routes(table, [route])  # refused
validate_routes([vrp], [route])  # refused
validate_routes([table], [route], True)  # refused
table.validate_routes([vrp])  # refused
table.validate_routes(7)  # refused
table.validate_routes(route)  # refused
table.validate_routes([route], True)  # refused
table.validate_routes([route], reasons=[])  # refused
table.validate_octets("10.0.0.0/8")  # refused
table.validate_octets([route], True)  # refused
table.validate_octets([route], reasons=1)  # refused
table.validate(vrp)  # refused
table.validate(network)  # refused
table.validate([route])  # refused
table.validate("10.0.0.0/8 AS1")  # refused
table.reason(vrp)  # refused
table.covering(vrp)  # refused
table.covering(None)  # refused
table.with_changes([vrp])  # refused
table.with_changes(announced=[route])  # refused
table.with_changes(added=[vrp])  # refused
table.changes([vrp])  # refused
table.revalidate([route], table)  # refused
route in table  # refused

text: str = table.validate(route)  # refused
number: int = table.validate(route)  # refused
prefix: int = table.covering(route)[0].vrp.prefix  # refused
octets: bytes = issuer.verify(extensions)  # refused
octets = table.validate_octets([route], reasons=True)  # refused
validities: list[Validity] = table.validate_routes([route], reasons=True)  # refused
name: str = vrp.asn  # refused
family: Family = 4  # refused
print([*vrp])  # refused
Validity.VALID + 1  # refused
