# refused at run: not canonical
from pigyelund import Extensions, Resources

# The list has 10.0.0.0/9 and 10.0.0.0/8.
claim = Extensions(ip=bytes.fromhex("3011300f0402000130090302000a0303000a00"))
Resources.from_text(v4="0.0.0.0/0").verify(claim)
