# refused at compile: [arg-type]
from pigyelund import Resources

ten = Resources.from_text(v4="10.0.0.0/8")
ten.verify(ten.der(), encoding=1)
