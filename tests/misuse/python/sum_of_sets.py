# refused at compile: [operator]
from pigyelund import Resources

print(Resources.from_text(v4="10.0.0.0/8") + Resources.from_text(v4="12.0.0.0/8"))
