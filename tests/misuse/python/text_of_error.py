# refused at run: QueryError
from pigyelund import answer

# Whether the text is that of an error is not looked at.
text = answer("norm v4 10.0.0.1/33")
print("accepted", text)
