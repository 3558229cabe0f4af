# refused at compile: [arg-type]
from pigyelund import read_routes

read_routes("10.0.0.0/8 AS64496")
