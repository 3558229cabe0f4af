# refused at run: AS identifiers
from pigyelund import Extensions, Resources

# The set has no AS numbers, so its certificate has no extension of AS identifiers.
ten = Resources.from_text(v4="10.0.0.0/8")
ten.verify(Extensions(b"", ten.der().ip))
