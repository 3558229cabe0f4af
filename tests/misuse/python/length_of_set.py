# refused at compile: [arg-type]
from pigyelund import Resources

print(len(Resources.from_text(v4="10.0.0.0/8")))
