# refused at compile: [arg-type]
from pigyelund import Vrp, apply_slurm

# The file comes first.
apply_slurm([Vrp("10.0.0.0/8 AS1")], b"{}")
