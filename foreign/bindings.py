#!/usr/bin/env python3
"""bindings.py --write|--check: makes the bindings of Python and of JavaScript from foreign/pigyelund.h.

foreign/python/src/pigyelund/_bindings.py has the numbers, structs and prototypes of the header, for ctypes. Two lines
of foreign/js/pigyelund.js have the numbers. A type of foreign/js/pigyelund.d.ts has the statuses, with the texts of
foreign/texts.txt. The texts of errors come from the library (pigy_status_text) when a program runs. With --check the
script writes nothing, and the status is 1 if a file differs from what the script would write.
"""

import re
import sys
import textwrap
from collections.abc import Iterator
from pathlib import Path

HERE = Path(__file__).resolve().parent
HEADER, MADE = HERE / "pigyelund.h", HERE / "python" / "src" / "pigyelund" / "_bindings.py"
SCRIPT, MARKS = HERE / "js" / "pigyelund.js", r"( *// made by foreign/bindings\.py: begin\n).*?( *// .*?: end\n)"
TYPED, TEXTS = HERE / "js" / "pigyelund.d.ts", HERE / "texts.txt"
# The statuses for which pigyelund.js and the Python package have no error: they pass other arguments, or call again.
UNUSED = {"OK", "TOO_SMALL", "BAD_ENCODING", "BAD_MODE", "BAD_PRESENT", "BAD_KIND", "OUTSIDE", "NO_HANDLE"}
TYPES = {
    "uint8_t": "c_uint8",
    "uint32_t": "c_uint32",
    "uint64_t": "c_uint64",
    "size_t": "c_size_t",
    "const char *": "c_char_p",
    "char *": "c_char_p",
    "const uint8_t *": "c_char_p",
    "pigy_resources *": "c_void_p",
    "pigy_table *": "c_void_p",
}
# The formats of the module `struct`; struct_class adds those of structs.
FORMATS = {"c_uint8": "B", "c_uint32": "I", "c_size_t": "N"}
HEAD = '''"""The numbers, structs and calls of foreign/pigyelund.h. foreign/bindings.py makes this file."""

from ctypes import POINTER, Array, Structure, c_char_p, c_size_t, c_uint8, c_uint32, c_uint64, c_void_p
from enum import IntEnum
'''


def class_of(struct: str) -> str:
    """Returns the name of the class for a struct: `AsRange` for `pigy_as_range`."""
    return "".join(it.capitalize() for it in struct.split("_")[1:])


def enumerations(text: str) -> Iterator[list[tuple[str, str, str]]]:
    """Yields the constants of each enumeration: the name without PIGY_, the number, and the comment."""
    for body in re.findall(r"^PIGY_ENUM \{(.*?)\}", text, re.MULTILINE | re.DOTALL):
        pattern = r"(?:/\*\*((?:(?!\*/).)*)\*/\s*)?PIGY_(\w+) = (\w+),?[ ]*(?:/\*\*< (.*?) \*/)?"
        found = re.findall(pattern, body, re.DOTALL)
        yield [(name, number, after or before) for before, name, number, after in found]


def shortened(comment: str) -> str:
    """Returns the prose of a comment in one line, without PIGY_, a table, and words that point to other comments."""
    prose = re.sub(r" \(see \w+ above\)", "", re.split(r":\n +\*\n", comment)[0])
    return " ".join(re.sub(r"\n +\* ?", " ", prose).replace("PIGY_", "").split())


def for_python(name: str, comment: str) -> str:
    """Returns the text of a status for the package, with the names that the package has."""
    if name in UNUSED - {"OK"}:
        return "No exception has this status."
    text = re.sub(r": \w+ \+ \w+|pigy_", "", shortened(comment))
    return re.sub(r"\bIPV([46])\b", r"Family.V\1", text).rstrip(".") + "."


def status_class(constants: list[tuple[str, str, str]]) -> Iterator[str]:
    """Yields the lines of the class of statuses. Its docstring has the comments of the header."""
    yield "class Status(IntEnum):"
    yield '    """The statuses of a call. A number n, or SECOND, is added to some of them, as in `pigyelund.h`.'
    yield ""
    yield "    Attributes:"
    for name, _, comment in constants:
        text = f"{name}: {for_python(name, comment)}"
        yield from textwrap.wrap(text, 120, initial_indent=" " * 8, subsequent_indent=" " * 12)
    yield '    """'
    yield ""
    yield from (f"    {name} = {number}" for name, number, _ in constants)


def struct_class(body: str, name: str) -> Iterator[str]:
    """Yields the lines of the class of a struct."""
    fields = []
    for type_, pointer, field, count in re.findall(r"^  ((?:const )?\w+) (\*?)(\w+)(?:\[(\d+)\])?;", body, re.M):
        plain = type_.removeprefix("const ")
        kind = "c_void_p" if pointer else TYPES.get(plain, class_of(plain))
        field = "asn" if field == "as" else field  # `as` is a keyword of Python
        python = "int | None" if pointer else "int" if plain in TYPES else class_of(plain)
        fields.append((field, f"{kind} * {count}" if count else kind, f"Array[{kind}]" if count else python))
    FORMATS[class_of(name)] = "".join(format_of(kind) for _, kind, _ in fields)
    yield f"class {class_of(name)}(Structure):"
    yield f'    """The struct `{name}`."""'
    yield ""
    yield "    _fields_ = ["
    yield from (f'        ("{field}", {kind}),' for field, kind, _ in fields)
    yield "    ]"
    yield from (f"    {field}: {python}" for field, _, python in fields)


def format_of(kind: str) -> str:
    """Returns the format of a field of a struct."""
    name, _, count = kind.partition(" * ")
    return f"{count}s" if count else FORMATS.get(name, "P")


def type_of(text: str) -> str:
    """Returns the type of a parameter or of a result for ctypes."""
    text = re.sub(r"\*const$", "*", text.strip())
    plain = text.removeprefix("const ")
    known = TYPES.get(text) or TYPES.get(plain)
    if known:
        return known
    if plain.endswith("*"):
        return f"POINTER({type_of(plain.removesuffix('*'))})"
    return class_of(plain)


def calls(text: str) -> Iterator[str]:
    """Yields the lines of the dict of prototypes."""
    yield "# The name of each call, with the type of its result and those of its parameters."
    yield "CALLS: dict[str, tuple[type | None, list[type]]] = {"
    for result, name, listed in re.findall(r"^ \*/\n([\w ]+?\*?) ?(pigy_\w+)\(([^;{]*?)\)", text, re.MULTILINE):
        parameters = [] if listed == "void" else [re.sub(r"\w+$", "", " ".join(it.split())) for it in listed.split(",")]
        types = ", ".join(map(type_of, parameters))
        returned = "None" if result == "void" else type_of(result)
        line = f'    "{name}": ({returned}, [{types}]),'
        if len(line) <= 120:
            yield line
            continue
        yield from (f'    "{name}": (', f"        {returned},", "        [")
        yield from textwrap.wrap(f"{types},", 120, initial_indent=" " * 12, subsequent_indent=" " * 12)
        yield from ("        ],", "    ),")
    yield "}"


def made() -> str:
    """Returns the contents of the file."""
    text = HEADER.read_text()
    TYPES.update({it: "c_uint32" for it in re.findall(r"^typedef uint32_t (pigy_\w+);", text, re.MULTILINE)})
    statuses, *others = enumerations(text)
    macros = re.findall(r"^#define PIGY_(VERSION_NUMBER|\w+_MAX) (\d+)u$", text, re.MULTILINE)
    structs = re.findall(r"^typedef struct \{\n(.*?)^\} (pigy_\w+);", text, re.MULTILINE | re.DOTALL)
    parts = [HEAD, *(f"{name} = {number}" for name, number in macros)]
    parts += [f"{name} = {number}" for group in others for name, number, _ in group]
    for lines in (status_class(statuses), *(struct_class(*it) for it in structs), calls(text)):
        parts += ["", "", *lines]
    packed = {name: it + "0I" * ("I" in it) for name, it in FORMATS.items() if name[0].isupper() and "P" not in it}
    parts += ["", "", "# The formats of structs, with the padding of C, for the module `struct`."]
    parts += [f"{name.upper()}_FORMAT = \"@{it}\"" for name, it in packed.items() if "N" not in it]
    return "\n".join(parts) + "\n"


def script() -> str:
    """Returns the script for JavaScript with the numbers of the header."""
    statuses, *others = enumerations(HEADER.read_text())
    lines = []
    for name, group in (("STATUS", statuses), ("NUMBER", [it for other in others for it in other])):
        text = ", ".join(f"{constant}: {number}" for constant, number, _ in group)
        lines += textwrap.wrap(f"const {name} = {{ {text} }};", 120, initial_indent="  ", subsequent_indent="    ")
    return re.sub(MARKS, lambda it: it[1] + "\n".join(lines) + "\n" + it[2], SCRIPT.read_text(), flags=re.DOTALL)


def faults_of(kind: int, named: set[int]) -> str:
    """Returns the numbers of the errors of a kind with their texts, except for the statuses that have a name."""
    lines = (it.split(" ", 1) for it in TEXTS.read_text().splitlines())
    found = [(int(number), text) for number, text in lines if int(number) & ~0xFF == kind and int(number) not in named]
    heads = dict.fromkeys(text.partition(": ")[0] for _, text in found)
    listed = {head: "; ".join(f"{number & 0xFF}: {text.removeprefix(f'{head}: ')}" for number, text in found
                              if text.startswith(f"{head}: ")) for head in heads}
    ofs = {head: f"For an {head} `fault` " if len(heads) > 1 else "`fault` " for head in heads}
    return " ".join(f"{ofs[head]}{texts}." for head, texts in listed.items())


def types() -> str:
    """Returns the types for JavaScript with the statuses of the header."""
    statuses = next(enumerations(HEADER.read_text()))
    named = {int(number, 0) for _, number, _ in statuses}
    known = {int(it.split()[0]) for it in TEXTS.read_text().splitlines()}
    lines = ["/** The name of a status of the module. */", "export type Status ="]
    for name, number, comment in statuses:
        faults = faults_of(int(number, 0), named)
        if name in UNUSED or not (faults or int(number, 0) in known):
            continue
        prose = re.sub(r" [^.]*\bis added\b[^.]*\.|: \w+ \+ \w+|pigy_", "", shortened(comment))
        text = f"/** {prose.rstrip('.')}. {faults}".rstrip() + " */"
        lines += [*textwrap.wrap(text, 120, initial_indent="  ", subsequent_indent="   * "), f'  | "{name}"']
    lines[-1] += ";"
    return re.sub(MARKS, lambda it: it[1] + "\n".join(lines) + "\n" + it[2], TYPED.read_text(), flags=re.DOTALL)


def main() -> int:
    """Writes the files, or compares them."""
    match sys.argv[1:]:
        case ["--write"]:
            MADE.write_text(made())
            SCRIPT.write_text(script())
            TYPED.write_text(types())
            return 0
        case ["--check"]:
            status = 0
            for file, text in ((MADE, made()), (SCRIPT, script()), (TYPED, types())):
                if not file.exists() or file.read_text() != text:
                    print(f"{file}: not the calls of pigyelund.h; run foreign/bindings.py --write")
                    status = 1
            return status
    print("usage: bindings.py --write|--check", file=sys.stderr)
    return 2


if __name__ == "__main__":
    sys.exit(main())
