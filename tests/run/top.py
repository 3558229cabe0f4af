"""The folder of the sources. Importing it makes the modules of tests/lib and of tests importable."""

import sys
from pathlib import Path

TOP = Path(__file__).resolve().parent.parent.parent
sys.path += [str(TOP / "tests" / "lib"), str(TOP / "tests")]
