#!/usr/bin/env python3
"""words.py: compares the names of the calls, and the order of their arguments, in C, Rust and Python.

A call of foreign/pigyelund.h has one word in each language, such as `with_changes` for `pigy_table_with_changes`. Its
object comes last in a function of a module: `read_vrps` for `pigy_vrps_read`. A call on DER has the word of the call on
handles. Arguments with the same name have the same order. The status is 1 if a package differs.
"""

import re
import sys
from collections.abc import Iterator
from pathlib import Path

HERE = Path(__file__).resolve().parent
# The functions of a package: their names and their parameters. Those after `*` have to be named, in any order.
FUNCTIONS = {
    "Rust": ("rust/src/*.rs", r"\bfn (\w+)(?:<[^(]*>)?\(([^)]*)\)"),
    "Python": ("python/src/pigyelund/*.py", r"\bdef (\w+)\(([^)]*)\)"),
}
# The words that are an operator, a conversion or the making and freeing of a value in a language.
OWN = {
    "Rust": {"free": "drop", "equal": "eq", "contains_asn": "contains", "contains_prefix": "contains",
             "vrp_from_text": "from_str", "route_from_text": "from_str", "vrp_text": "fmt", "route_text": "fmt"},
    "Python": {"union": "__or__", "intersection": "__and__", "difference": "__sub__", "equal": "__eq__",
               "symmetric_difference": "__xor__", "contains": "__contains__", "contains_asn": "__contains__",
               "contains_prefix": "__contains__", "text": "__str__", "free": "__del__", "new": "__init__",
               "len": "__len__", "vrps": "__iter__", "vrp_from_text": "__init__", "route_from_text": "__init__",
               "vrp_text": "__str__", "route_text": "__str__", "ip_ranges": "ranges", "version": "library_version"},
}  # fmt: skip


def word_of(call: str) -> str:
    """Returns the word of a call: `read_unexpired_vrps` for `pigy_vrps_read_unexpired`."""
    word = re.sub(r"^pigy_(resources_|tables?_(?!$)|set_)?", "", call)
    return re.sub(r"^(vrps|routes|slurm)_(\w+)$", r"\2_\1", word)


def names_of(listed: str) -> list[str]:
    """Returns the names of parameters: those of C, of Rust, or of Python up to `*`."""
    words = [re.sub(r"[:=].*", "", it, flags=re.DOTALL).split() for it in re.split(r",|$", listed.split("*,")[0])]
    return [it[-1].lstrip("*&") for it in words if it]


def faults() -> Iterator[str]:
    """Yields the calls that a package lacks, or whose arguments it takes in another order."""
    header = re.sub(r"/\*.*?\*/", "", (HERE / "pigyelund.h").read_text(), flags=re.DOTALL)
    calls = re.findall(r"^[\w ]+?\*?(pigy_\w+)\(([^;{]*?)\)", header, re.MULTILINE)
    for language, (files, pattern) in FUNCTIONS.items():
        text = "".join(it.read_text() for it in sorted(HERE.glob(files)))
        found: dict[str, list[list[str]]] = {}
        for name, listed in re.findall(pattern, text):
            found.setdefault(name, []).append(names_of(listed))
        for call, listed in calls:
            word = OWN[language].get(word_of(call), word_of(call))
            if word not in found:
                yield f"{language} has no {word} for {call}"
            names = [re.sub(r"^next$", "following", it) if language == "Python" else it for it in names_of(listed)]
            for parameters in found.get(word, []):
                common = [it for it in parameters if it in names]
                if common != sorted(common, key=names.index):
                    yield f"{language}: {word}({', '.join(parameters)}) is not in the order of {call}"
    if len(calls) < 50:
        yield f"pigyelund.h has {len(calls)} calls"


def main() -> int:
    """Prints the faults."""
    found = [*faults()]
    print(*found, f"words of calls: {len(found)} faults", sep="\n")
    return int(bool(found))


if __name__ == "__main__":
    sys.exit(main())
