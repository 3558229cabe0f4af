# refused at compile: [truthy-function]
from pigyelund import Route, Table

if Table().validate:
    print("accepted", Route("10.0.0.0/8 AS1"))
