# refused at compile: [operator]
from pigyelund import Resources

print(b"" in Resources.from_text(v4="10.0.0.0/8"))
