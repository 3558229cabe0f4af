# refused at run: 32 is no Encoding
from typing import Any
from pigyelund import Resources

# A program without types exchanges the numbers of pigyelund.h.
ten: Any = Resources.from_text(v4="10.0.0.0/8")
ten.verify(ten.der(), encoding=32, mode=17)
