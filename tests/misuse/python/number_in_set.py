# refused at compile: [operator]
from pigyelund import Resources

print(64496 in Resources.from_text(asn="64496"))
