#!/usr/bin/env python3
"""Tests the C code between the header and the proved functions: foreign_arrays.py.

A parameter of foreign/pigyelund.h is an array if it is a pointer with a length, a count or a capacity after it. The
test needs no proved library. It looks at two things:

- The header: the comment of each array says when it may be NULL. The attribute PIGY_NONNULL has exactly the other
  pointers whose comment says "Not NULL.".
- foreign/c/arrays.c: foreign/c/Makefile builds both libraries from stand-ins of the proved functions. A stand-in has
  the parameters of its function in crates/pigyelund_c/src/exports, and prints its arguments. A program makes each call
  of the header. It passes a different number or address for each parameter, and for each member of a struct. Then it
  passes NULL for each array in turn, and for all arrays. The stand-in has to get each argument at its position. If an
  array is NULL and its length is 0, the stand-in has to get an aligned address. With any other length it has to get
  NULL. If an array in a struct is NULL, the stand-in always has to get an address, and the length 0.

The library and the program have to compile without a warning. The compiler is gcc, or CC of the environment. The status
is 1 if something differs.
"""

import os
import re
import subprocess
import sys
import tempfile
from collections.abc import Iterator
from pathlib import Path
from typing import NamedTuple

from top import TOP
from blocks import told

HEADER = TOP / "foreign" / "pigyelund.h"
EXPORTS = TOP / "crates" / "pigyelund_c" / "src" / "exports"
# By the last word of the next parameter's name: what the comment of an array says.
SIZES = {"len": "length", "count": "count", "capacity": "capacity"}
ALIGNED = 8
CC = os.environ.get("CC", "gcc")
OPTIONS = ("-O2", "-Wall", "-Wextra", "-Werror")
# The names of the arguments that a proved function has for a struct. NAME is the parameter's name in the header. The
# length or the capacity of an array has the name of the array and `_size`.
MEMBERS = {
    "pigy_set": ("NAME_as", "NAME_as_size", "NAME_ip", "NAME_ip_size"),
    "pigy_buffers *": ("as_NAME", "as_NAME_size", "ip_NAME", "ip_NAME_size", "as_len", "ip_len"),
}
# The names of proved parameters that are not those of the header, alone or with the name of their call.
OTHER_NAMES = {"numbers": "set_as", "addresses": "set_ip", "over_as": "as_excess", "over_ip": "ip_excess"}
OTHER_NAMES |= {"over_as_len": "excess_as_len", "over_ip_len": "excess_ip_len", "pigy_as_ranges.numbers": "as"}
OTHER_NAMES |= {"pigy_table_new.table": "out", "pigy_table_with_changes.next": "out"}


class Parameter(NamedTuple):
    """A parameter: its type and its name. An array has the word for its length: length, count or capacity."""

    type: str
    name: str
    size: str

    @property
    def is_handle(self) -> bool:
        """Returns whether this is a handle that the call reads or frees."""
        return self.type.replace("const ", "") in ("pigy_table *", "pigy_resources *")


class Call(NamedTuple):
    """A call of the header: the type of its result, its name, its comment, its parameters, and what follows them."""

    result: str
    name: str
    comment: str
    parameters: list[Parameter]
    attributes: str


def parameters_of(text: str) -> Iterator[Parameter]:
    """Yields the parameters of a declaration."""
    split = [re.fullmatch(r"(.*?)(\w+)", " ".join(it.split())) for it in text.split(",")]
    found = [(it[1].strip(), it[2]) for it in split if it and it[2] != "void"]
    for (type_, name), (next_type, next_name) in zip(found, [*found, ("", "")][1:], strict=True):
        is_array = type_.endswith("*") and next_type == "size_t"
        yield Parameter(type_, name, SIZES[next_name.split("_")[-1]] if is_array else "")


def calls() -> list[Call]:
    """Returns the calls of the header that the proved library has."""
    pattern = r"/\*\*\n((?: \*[^\n]*\n)+?) \*/\n(\w+) (pigy_\w+)\(([^;]*?)\)([^;)]*(?:\([^;)]*\))?);"
    return [
        Call(result, name, comment, [*parameters_of(parameters)], attributes)
        for comment, result, name, parameters, attributes in re.findall(pattern, HEADER.read_text())
    ]


def faults_of_header(call: Call) -> Iterator[str]:
    """Yields what is wrong in the comment and in the attribute of a call."""
    comments = dict(re.findall(r"@param (\w+) +(.*?)(?=\n \* @|\n \*\n|\Z)", call.comment, re.DOTALL))
    never = []
    for number, it in enumerate(call.parameters, 1):
        said = re.sub(r"\s*\n \* +", " ", comments.get(it.name, "")).strip()
        if not it.type.endswith("*"):
            continue
        if it.size and not said.endswith(f" May be NULL if the {it.size} is 0."):
            yield f"{call.name}: the comment of {it.name} does not end with: May be NULL if the {it.size} is 0."
        if not it.size and not it.is_handle:
            never.append(number)
            if not said.endswith(" Not NULL."):
                yield f"{call.name}: the comment of {it.name} does not end with: Not NULL."
    found = re.search(r"PIGY_NONNULL\((.*)\)", call.attributes)
    if never != ([int(it) for it in found[1].split(",")] if found else []):
        yield f"{call.name}: PIGY_NONNULL({found[1] if found else ''}), expected {never}"


def proved() -> dict[str, list[str]]:
    """Returns the names of the arguments of each proved function, as the header has them. A slice is two arguments."""
    found = {}
    for path in sorted(EXPORTS.glob("*.rt")):
        for name, inside in re.findall(r"no_mangle\)\]\s*pub extern \"C\" fn (\w+)\((.*?)\)\s", path.read_text(), re.S):
            arguments: list[str] = []
            for own, type_ in re.findall(r"(\w+): ([^,]+)", inside):
                known = OTHER_NAMES.get(f"{name}.{own}", OTHER_NAMES.get(own, own))
                arguments += [known, f"{known}_size"] if "[" in type_ else [known] * (type_ != "Global")
            found[name] = arguments
    return found


def stand_in(number: int, call: Call, arguments: list[str]) -> str:
    """Returns the definition of a function that prints its arguments, and returns its number.

    On x86-64 an argument that is an address or a number has a register or a place of 8 octets. The upper half of a
    number of 4 octets is unspecified, and no number of a test is that large.
    """
    declared = ", ".join(f"uint64_t a{at}" for at in range(len(arguments))) or "void"
    values = "".join(f", (unsigned long long)a{at}" for at in range(len(arguments)))
    printed = f'printf("{call.name}{" %llx" * len(arguments)}\\n"{values});'
    result = "void" if call.result == "void" else "uint32_t"
    returned = f" return {number};" * (result != "void")
    return f"{result} {call.name}({declared}) {{ {printed}{returned} }}\n"


class Argument(NamedTuple):
    """A value of a trial: its C type, its name, whether it is an array, and whether it is a member of a struct."""

    type: str
    name: str
    is_array: bool = False
    is_member: bool = False


def arguments_of(call: Call) -> Iterator[Argument]:
    """Yields the arguments of a call, and those for the members of its structs."""
    array = ""
    for it in call.parameters:
        for at, name in enumerate(MEMBERS.get(it.type, ())):
            named = name.replace("NAME", it.name) if at < 4 or it.name == "out" else f"{it.name}_{name}"
            yield Argument("size_t" if at % 2 or at > 3 else "uint8_t *", named, at in (0, 2), True)
        if it.type not in MEMBERS:
            yield Argument(it.type, f"{array}_size" if array else it.name, bool(it.size))
            array = it.name if it.size else ""


class Trial(NamedTuple):
    """The values of a call, by the names of the proved function, and what the proved function has to get."""

    number: int
    call: Call
    values: dict[str, int]
    wanted: dict[str, int | None]

    @property
    def statement(self) -> str:
        """Returns the statement that makes the call, and prints its result."""
        given, before, shown = [], "", [*arguments_of(self.call)]
        for it in self.call.parameters:
            if it.type not in MEMBERS:
                given.append(f"({it.type}){self.values[shown.pop(0).name]:#x}")
                continue
            members = [shown.pop(0) for _ in MEMBERS[it.type]]
            texts = [f"({one.type}){self.values[one.name]:#x}" for one in members]
            if it.type == "pigy_set":
                given.append(f"(pigy_set){{{', '.join(texts)}}}")
            else:
                texts = [texts[0], texts[1], "0", texts[2], texts[3], "0"]
                before += f" pigy_buffers {it.name} = {{{', '.join(texts)}}};"
                before += f' printf("%llx %llx\\n", A({it.name}.as_len), A({it.name}.ip_len));'
                given.append(f"&{it.name}")
        made = f"{self.call.name}({', '.join(given)})"
        return f"  {{{before} " + (f'printf("%u\\n", {made});' if self.call.result != "void" else f"{made};") + " }\n"

    def fault(self, lines: list[str], names: list[str]) -> str | None:
        """Returns what differs in the next lines of the output, which it removes from the list. None if nothing."""
        wanted = dict(self.wanted)
        for it in self.call.parameters:
            if it.type == "pigy_buffers *":
                before = "" if it.name == "out" else f"{it.name}_"
                as_len, ip_len = (int(word, 16) for word in lines.pop(0).split())
                wanted |= {f"{before}as_len": as_len, f"{before}ip_len": ip_len}
        name, *values = lines.pop(0).split(" ") if lines else [""]
        status = lines.pop(0) if self.call.result != "void" and lines else ""
        got = dict(zip(names, (int(it, 16) for it in values), strict=True))
        for one, value in wanted.items():
            if value is None and got.get(one) and got[one] % ALIGNED == 0:
                wanted[one] = got[one]
        if (name, got) != (self.call.name, wanted):
            return f"{self.call.name}: passed {self.values}; the proved function got {got} in place of {wanted}"
        wanted_status = "" if self.call.result == "void" else str(self.number)
        return None if status == wanted_status else f"{self.call.name}: status {status} in place of {wanted_status}"


def expected(values: dict[str, int]) -> dict[str, int | None]:
    """Returns what a proved function has to get for these values: the same values."""
    return {**values}


def trials(number: int, call: Call) -> Iterator[Trial]:
    """Yields the trials of a call. The arguments differ from one another, and from those of all other calls."""
    least, listed = 1000 * number, [*arguments_of(call)]
    usual = {it.name: (least + at) * (0x1000 if "*" in it.type else 1) for at, it in enumerate(listed, 1)}
    usual |= {"present": 3} if "present" in usual else {}
    arrays = [at for at, it in enumerate(listed) if it.is_array]
    yield Trial(number, call, usual, expected(usual))
    for nulls in ([[at] for at in arrays] + [arrays]) if arrays else []:
        for clears_address, clears_length in ((True, True), (True, False), (False, True)):
            values, wanted = dict(usual), expected(usual)
            for at in nulls:
                array, length = listed[at], listed[at + 1]
                values |= ({array.name: 0} if clears_address else {}) | ({length.name: 0} if clears_length else {})
                is_replaced = clears_address and (clears_length or array.is_member)
                wanted[array.name] = None if is_replaced else values[array.name]
                wanted[length.name] = 0 if is_replaced else values[length.name]
            yield Trial(number, call, values, wanted)
    if "present" in usual:
        for present, absent in ((0, ("as", "ip")), (1, ("ip",)), (2, ("as",))):
            wanted = expected(usual | {"present": present})
            wanted |= {f"cert_{it}": None for it in absent} | {f"cert_{it}_size": 0 for it in absent}
            yield Trial(number, call, usual | {"present": present}, wanted)


def run(*words: object, **more: object) -> str:
    """Runs a command. Returns its output. Ends the test if it fails."""
    ran = subprocess.run([str(it) for it in words], stdout=subprocess.PIPE, stderr=subprocess.STDOUT, text=True, **more)
    if ran.returncode:
        sys.exit(f"{ran.stdout}FAILED: {' '.join(str(it) for it in words)}")
    return ran.stdout


def built(folder: Path, listed: list[Call], names: dict[str, list[str]]) -> None:
    """Builds both libraries in a folder from the stand-ins."""
    code = "".join(stand_in(number, call, names[call.name]) for number, call in enumerate(listed, 1))
    (folder / "proved.c").write_text(f"#include <stdint.h>\n#include <stdio.h>\n{code}")
    (folder / "kit.c").write_text("int of_kit(void);\nint of_kit(void) { return 0; }\n")
    (folder / "kit" / "c").mkdir(parents=True)
    for source, archive in (("proved.c", "proved.a"), ("kit.c", "kit/c/liblibc_c.a")):
        run(CC, *OPTIONS, "-fPIC", "-c", folder / source, "-o", folder / "one.o")
        run("ar", "rcs", folder / archive, folder / "one.o")
    variables = (f"CC={CC}", f"CFLAGS={' '.join(OPTIONS)}", f"OUT={folder}", f"LIB={folder / 'proved.a'}")
    run("make", "-s", "-C", HEADER.parent / "c", *variables, f"KIT={folder / 'kit'}", "shared")


def faults_of_arrays(folder: Path) -> Iterator[str]:
    """Yields what differs in the arguments that the stand-ins get."""
    names = proved()
    listed = [it for it in calls() if it.name != "pigy_status_text"]
    if {it.name for it in listed} != names.keys():
        yield f"the header or the crate alone has {({it.name for it in listed} ^ names.keys())}"
        return
    built(folder, listed, names)
    tried = [it for number, call in enumerate(listed, 1) for it in trials(number, call)]
    body = "".join(it.statement for it in tried)
    (folder / "calls.c").write_text(
        "#include <pigyelund.h>\n#include <stdio.h>\n#define A(it) (unsigned long long)(uintptr_t)&it\n"
        f"int main(void) {{\n{body}}}\n"
    )
    for library in ("libpigyelund.a", "libpigyelund.so"):
        run(CC, *OPTIONS, f"-I{HEADER.parent}", folder / "calls.c", folder / library, "-o", folder / "calls")
        lines = run(folder / "calls", env=os.environ | {"LD_LIBRARY_PATH": str(folder)}).splitlines()
        yield from (f"{library}: {fault}" for it in tried if (fault := it.fault(lines, names[it.call.name])))
    print(f"{len(listed)} calls, {len(tried)} trials with each library")


def main() -> int:
    """Prints what is wrong."""
    status = told(fault for call in calls() for fault in faults_of_header(call))
    sys.stdout.flush()
    with tempfile.TemporaryDirectory() as folder:
        return told([*faults_of_arrays(Path(folder))][:20]) or status


if __name__ == "__main__":
    sys.exit(main())
