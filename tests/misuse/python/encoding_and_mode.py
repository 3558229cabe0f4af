# refused at compile: [arg-type]
from pigyelund import Encoding, Mode, Resources

ten = Resources.from_text(v4="10.0.0.0/8")
ten.verify(ten.der(), mode=Encoding.STRICT, encoding=Mode.REFUSE)
