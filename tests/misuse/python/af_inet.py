# refused at compile: [arg-type]
import socket
from pigyelund import Resources

Resources.from_text(v4="10.0.0.0/8").prefixes(socket.AF_INET)
