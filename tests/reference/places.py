"""The answers of `respath --where`.

After an error or a refusal they have a tab and the position of the first wrong or overclaimed element. The reference
reads each element alone, and it claims each element of a refused step alone.
"""

import re
from collections.abc import Iterator

from . import lines, texts
from .faults import Fault

# The commands whose argument is a list or a path of lists.
LISTED = tuple(it for it in lines.COMMANDS if it != "read")
# The errors that no single element causes. Each has lines that get the error, and that have an invalid element too.
OF_LINE = {
    "error: not UTF-8": (b"norm as x\xff", b"path v4 10.0.0.0/8 | trim x, \xff"),
    "error: unknown kind": (b"cover as x", b"norm v5 x", b"path AS 1 | trim x"),
    "error: unknown command": (b"overlap as x", b"paths as 1 | trim x"),
}
_CONTROL = re.compile("[\x00-\x1f\x7f-\x9f]")


def lines_of_errors() -> Iterator[bytes]:
    """Yields the lines of OF_LINE. Each has to get its error."""
    for error, listed in OF_LINE.items():
        for line in listed:
            if lines.answer(line) != error:
                raise ValueError(f"OF_LINE: {line!r} gets {lines.answer(line)}, not {error}")
            yield line


def shown(text: str) -> str:
    """Returns a text without white space at its ends, and with a question mark in place of each control character."""
    return _CONTROL.sub("?", texts.trim(text))


def elements(text: str, place: str = "") -> Iterator[tuple[str, str]]:
    """Yields the elements of a list, also empty ones, each after its position."""
    for number, element in enumerate(text.split(","), 1):
        yield f"{place}element {number}: {shown(element)}", texts.trim(element)


def is_wrong(kind: str, element: str) -> bool:
    """Returns whether an element alone is not a list."""
    try:
        lines.read_set(kind, element)
    except Fault:
        return True
    return False


def first_wrong(kind: str, text: str, place: str = "") -> str | None:
    """Returns the position of the first wrong element of a list."""
    return next((at for at, element in elements(text, place) if is_wrong(kind, element)), None)


def first_wrong_of_path(kind: str, text: str) -> str | None:
    """Returns the position of the first wrong element of a path, or of the first invalid step."""
    root, *steps = text.split("|")
    if found := first_wrong(kind, root, "root, "):
        return found
    for number, step in enumerate(map(texts.trim, steps)):
        mode, listed = texts.cut(step, " ")
        if mode in ("refuse", "trim"):
            if found := first_wrong(kind, listed, f"step {number}, "):
                return found
        elif step not in ("inherit", "missing"):
            return f"step {number}: {shown(step)}"
    return None


def first_overclaimed(kind: str, text: str, step: int) -> str | None:
    """Returns the position of the first element of a refused step that is refused alone after the steps before."""
    *before, refused = text.split("|")[: step + 2]
    left = lines.answer(f"path {kind} {'|'.join(before)}".encode())
    _, listed = texts.cut(texts.trim(refused), " ")
    for at, element in elements(listed, f"step {step}, "):
        if lines.answer(f"path {kind} {left} | refuse {element}".encode()).startswith("refused "):
            return at
    return None


def place_of(line: bytes, answer: str) -> str | None:
    """Returns the position in a line that its answer is about."""
    if not answer.startswith(("error: ", "refused ")) or answer in OF_LINE:
        return None
    command, rest = texts.cut(line.decode(), " ")
    kind, argument = texts.cut(rest, " ")
    if command not in LISTED:
        return None
    if command != "path":
        return first_wrong(kind, argument)
    if refused := re.match(r"refused at step (\d+): ", answer):
        return first_overclaimed(kind, argument, int(refused[1]))
    return first_wrong_of_path(kind, argument)


def answer(line: bytes) -> str:
    """Returns the answer to a line, with its position."""
    text = lines.answer(line)
    place = place_of(line, text)
    return text if place is None else f"{text}\t{place}"
