# refused at compile: object is not iterable
from pigyelund import Resources

asn, ip = Resources.from_text(v4="10.0.0.0/8")
