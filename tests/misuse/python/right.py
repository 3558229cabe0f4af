# accepted: the right calls of this folder
import sys
from pigyelund import Encoding, Mode, Resources, Route, Table, Validity, Vrp

ten = Resources.from_text(v4="10.0.0.0/8")
found = ten.verify(ten.der(), mode=Mode.REFUSE, encoding=Encoding.STRICT)
table, route = Table([Vrp("10.0.0.0/8-16 AS64496")]), Route("10.0.0.0/16 AS64496")
validities, reasons = table.validate_routes([route], reasons=True)
is_valid = table.validate(route) == Validity.VALID and validities == [Validity.VALID] and reasons == [None]
print("accepted") if found <= ten and is_valid else sys.exit(1)
