#!/usr/bin/env python3
"""api_pages.py [FOLDER]: makes pages of the libraries' public calls from the sources, in out/api if no folder is named.

A page lists the public items of a library by their paths: the doc comment, and the declaration or the signature with
its contract. The calls and the traits of a type come after it. ./release ships the pages.

With --paths the script writes a `use` line of each public path into `crates/test_paths`, which `rt ci` compiles. So
that crate fails if a path vanishes. The script reads the sources as `rt fmt` leaves them: an item begins at its indent,
and a body at a brace of the same indent.
"""

import re
import sys
from collections.abc import Iterator
from dataclasses import dataclass, field
from functools import cache
from pathlib import Path

from top import TOP
from api_paths import ITEM, Key, Module, meant_by, public_paths, root_of
from groups import BESIDE, about, is_program, section_of, sections, stands_on

PATHS = TOP / "crates" / "test_paths" / "src" / "lib.rt"
PATHS_HEAD = """//! A `use` line of each public path of the libraries. `tests/run/api_pages.py --paths` makes this file.
#![tactic(auto)]

"""
HEAD = """# API of the libraries

A page lists the public items of a library with their contracts, as the source has them. `requires` begins a
precondition, and `ensures` a postcondition. Other words of a contract are definitions in the folder `specs/` of a
crate. A line that begins with `ghost` is for contracts and proofs alone. The pages leave out bodies, private fields,
imports and proofs.
"""
# Ghost lines without meaning for callers are left out: imports, proofs, and how a value is stored.
PROOFS = "use laws total matches_partial_cmp matches_eq respects_eq one_item no_gaps in_order form_bounds has_family \
has_width is_reading is_modal has_octets inverse"
LEFT_OUT = re.compile(rf"    ghost (?:use |(?:{'|'.join(PROOFS.split())}) =)")
# A link of rustdoc, and the line that has the target of one.
LINK = re.compile(r"\[`([\w:()]+)`\](?:\(((?:[\w:@]|\(\))*)\))?")
TARGET = re.compile(r"\[`([\w:()]+)`\]: (\S+)")
CLAUSE = re.compile(r"^\s*(?:ensures|requires|decreases|ghost)\b")
MEMBER = re.compile(r"    pub (?:(const (?=[A-Z])|type )|(?:const )?fn )(\w+)")


@dataclass
class Item:
    """A public type or function with its doc comment. A call on a type is an item of the type; a trait has no name."""

    name: str
    path: str = ""
    home: Module | None = None
    doc: list[str] = field(default_factory=list)
    code: list[str] = field(default_factory=list)
    calls: list["Item"] = field(default_factory=list)


def indent_of(line: str) -> int:
    """Returns the number of blanks before a line's text."""
    return len(line) - len(line.lstrip())


def signature(lines: list[str], at: int) -> list[str]:
    """Returns the head of the function that begins at a line, with its clauses and without its body."""
    indent, head, has_clause = indent_of(lines[at]), [], False
    for line in lines[at:]:
        if line.strip() in ("{", "{}") and indent_of(line) == indent:
            break
        has_clause = has_clause or CLAUSE.match(line) is not None
        ends = re.search(r"\s*(?:\{\}|\{|;)$", line)
        if ends and (not has_clause or ends[0].strip() == ";"):
            head.append(line[: ends.start()])
            break
        head.append(line)
    return [line[indent:] for line in head]


def block_end(lines: list[str], at: int) -> int:
    """Returns the index of the line after the block or the one-line item that begins at line `at` without indent."""
    if re.search(r"(?:;|\{\})$", lines[at]):
        return at + 1
    return next(k for k in range(at + 1, len(lines)) if re.match(r"[})](?:.*[^{])?$", lines[k])) + 1


def doc_above(lines: list[str], at: int) -> list[str]:
    """Returns the doc comment above a line and its attributes."""
    doc: list[str] = []
    for line in reversed(lines[:at]):
        text = line.strip()
        if text.startswith("///"):
            doc.insert(0, text[3:].removeprefix(" "))
        elif not text.startswith(("#[", "//")):
            break
    return doc


def attributes_above(lines: list[str], at: int) -> list[str]:
    """Returns the attributes above a type that its user has to know: what it derives, its layout, its error text."""
    shown: list[str] = []
    for line in reversed(lines[:at]):
        if re.match(r"#\[(?:derive|derive_where|repr|non_exhaustive|must_use|error)\b", line):
            shown.insert(0, line)
        elif not line.startswith(("#[", "//")):
            break
    return shown


def without_bodies(lines: list[str]) -> list[str]:
    """Returns the head, the associated types, the ghost members and the function heads of an impl of a trait."""
    kept, at = [lines[0]], 1
    while at < len(lines) - 1:
        text = lines[at].strip()
        if text.startswith("ghost "):
            end = ghost_end(lines, at)
            kept += [] if LEFT_OUT.match(lines[at]) else lines[at:end]
            at = end - 1
        elif re.match(r"    (?:type|const) [A-Z]", lines[at]):
            end = next(k for k in range(at, len(lines)) if lines[k].endswith(";"))
            kept += lines[at : end + 1]
        elif re.match(r"(?:pub )?(?:unsafe )?fn ", text):
            head, doc = signature(lines, at), doc_above(lines, at)
            if doc or any(CLAUSE.match(line) for line in head):
                kept += [f"    {line}".rstrip() for line in (*(f"/// {it}" for it in doc), *head)]
        at += 1
    return [*kept, "}"] if len(kept) > 1 else [f"{lines[0].removesuffix(' {}').removesuffix(' {')} {{}}"]


def ghost_end(lines: list[str], at: int) -> int:
    """Returns the index of the line after the ghost member that begins at a line."""
    return next(k for k in range(at, len(lines)) if lines[k].endswith("};")) + 1


def declared(block: list[str]) -> list[str]:
    """Returns a type or a trait without the bodies of functions.

    It also leaves out the ghost lines that have no meaning for callers.
    """
    kept, end = [], 0
    for at, line in enumerate(block):
        if at < end:
            continue
        if LEFT_OUT.match(line):
            end = ghost_end(block, at)
        elif re.match(r"    (?:\).*|.*\bfn .*)?\{$", line) and "    }" in block[at:]:
            end = block.index("    }", at) + 1
            kept.append(f"{line} .. }}")
        else:
            kept.append(line)
    return kept


def type_code(block: list[str]) -> list[str]:
    """Returns the declaration of a type without its private fields."""
    if not block[0].startswith("pub struct"):
        return declared(block)
    if len(block) == 1:
        return [re.sub(r"\((?!pub).*\)", "(..)", block[0])]
    shown = [line for line in block[1:-1] if re.match(r"    (?:pub |///)", line)]
    if not any(line.startswith("    pub ") for line in shown):
        return [f"{block[0]} .. }}"] if block[0].endswith("{") else [block[0], "{ .. }"]
    return [block[0], *shown, block[-1]]


def owner_of(head: str) -> tuple[str, str]:
    """Returns the type of an impl, and its trait or an empty text."""
    text = re.sub(r"\bwhere\b.*", "", head).removesuffix("{").removesuffix("{}")
    while (shorter := re.sub(r"<[^<>]*>", "", text)) != text:
        text = shorter
    text = re.sub(r"^(?:unsafe )?impl", "", text).strip()
    kind, _, of = text.partition(" for ")
    trait = kind.strip().split("::")[-1] if of else ""
    return (of or kind).strip().lstrip("&").split("::")[-1].split()[-1], trait


def owner_at(module: Module, head: str, items: dict[Key, Item]) -> Key | None:
    """Returns the item that shows an impl.

    This is its type, the type that it converts, or its trait if the type is a foreign one.
    """
    name, trait = owner_of(head)
    made_of = re.search(r"\bFrom<(\w+)", head)
    is_from_below = isinstance(own := meant_by(module, (name,)), tuple) and own not in items
    for it in (name, made_of[1] if made_of else "", trait if is_from_below else ""):
        key = meant_by(module, (it,))
        if isinstance(key, tuple) and key in items:
            return key
    return None


def read_items(module: Module, items: dict[Key, Item]) -> None:
    """Reads the types and the functions that a module has."""
    lines = module.file.read_text().split("\n")
    for at, line in enumerate(lines):
        if not (found := ITEM.match(line)):
            continue
        item = Item(found[1] or found[2] or found[3], home=module, doc=doc_above(lines, at))
        head = signature(lines, at) if found[2] else type_code(lines[at : block_end(lines, at)])
        item.code = [*attributes_above(lines, at), *head]
        items[(module.path, item.name)] = item


def read_impls(module: Module, items: dict[Key, Item]) -> None:
    """Adds what the impls of a module offer to their types. The text of an impl without a trait is one of its type."""
    lines = module.file.read_text().split("\n")
    for at, line in enumerate(lines):
        if not line.startswith(("impl", "unsafe impl")):
            continue
        block = lines[at : block_end(lines, at)]
        if (key := owner_at(module, line, items)) is None:
            continue
        doc = doc_above(lines, at)
        if owner_of(line)[1]:
            items[key].calls.append(Item("", doc=doc, code=without_bodies(block)))
            continue
        items[key].doc += ["", *doc] if doc else []
        for k, inner in enumerate(block):
            if found := MEMBER.match(inner):
                code = [it[4:] for it in block[k : member_end(block, k)]] if found[1] else signature(block, k)
                items[key].calls.append(Item(found[2], doc=doc_above(block, k), code=code))


def member_end(lines: list[str], at: int) -> int:
    """Returns the index of the line after the constant or the type of an impl that begins at a line."""
    return next(k for k in range(at, len(lines)) if re.match(r"    .*;$", lines[k]) and indent_of(lines[k]) == 4) + 1


def is_from_c(crate: str) -> bool:
    """Returns whether a library is a static one, which only C calls."""
    return f"\n{crate} staticlib:" in (TOP / "crates.txt").read_text()


@cache
def shown_items(crate: str) -> dict[Key, Item]:
    """Returns the public items of a crate: those with a public path, and what a public alias means."""
    modules = list(root_of(crate).all())
    items: dict[Key, Item] = {}
    for module in modules:
        read_items(module, items)
    for module in modules:
        read_impls(module, items)
    paths = public_paths(crate)
    shown = {key for key in items if key in paths or is_from_c(crate)}
    for module in modules:
        aliases = re.findall(r"^pub type (\w+).* = (\w+)", module.file.read_text(), re.M)
        meant = (meant_by(module, (it[1],)) for it in aliases)
        shown |= {key for key in meant if key in items}
    for key in shown:
        items[key].path = "" if is_from_c(crate) else paths.get(key, "")
    return {key: items[key] for key in items if key in shown}


@cache
def items_of(crate: str) -> list[Item]:
    """Returns the public items of a crate, by name."""
    return sorted(shown_items(crate).values(), key=lambda it: (it.name.lower(), it.path))


def libraries() -> list[str]:
    """Returns the libraries that others call, in the order of crates.txt."""
    beside = {*BESIDE} - {"examples"}
    return [it for it in stands_on() if not is_program(it) and section_of(it) not in beside]


def shown(heading: str, item: Item) -> Iterator[str]:
    """Yields the lines of an item below its heading. Headings of its doc comment become bold words."""
    said = (LINK.sub(r"`\1`", re.sub(r"^#+ (.*)", r"**\1**", it)) for it in item.doc if not TARGET.fullmatch(it))
    yield from [f"{heading}", "", *said, *([""] if item.doc else []), "```rust", *item.code, "```", ""]


def page(crate: str) -> str:
    """Returns the page of a library. The calls of a type come before its traits."""
    lines = [f"# {crate}", "", about(crate), ""]
    for item in items_of(crate):
        lines += shown(f"## {item.path or item.name}", item)
        for call in sorted(item.calls, key=lambda it: not it.name):
            lines += shown(f"### {item.name}::{call.name}" if call.name else f"### {call.code[0].rstrip(' {}')}", call)
    return "\n".join(lines)


def index() -> str:
    """Returns the index: a line for each library, by sections."""
    lines = [HEAD]
    for title, names in sections().items():
        items = [f"- [{it}]({it}.md): {about(it)}" for it in names if it in libraries()]
        lines += [f"## {title}", "", *items, ""] if items else []
    return "\n".join(lines)


def in_order(path: str) -> list[list[tuple[bool, int, str]]]:
    """Returns the key by which `rt fmt` sorts `use` lines: numbers in names count as numbers."""
    parts = (re.findall(r"\d+|\D+", it) for it in path.split("::"))
    return [[(not it.isdigit(), int(it) if it.isdigit() else 0, it) for it in part] for part in parts]


def use_lines() -> str:
    """Returns the source of `crates/test_paths`: a `use` line of each path."""
    paths = (item.path for crate in libraries() for item in items_of(crate) if item.path)
    return PATHS_HEAD + "".join(f"use {it} as _;\n" for it in sorted(paths, key=in_order))


def main(words: list[str]) -> None:
    """Writes the pages, or the paths."""
    if words == ["--paths"]:
        PATHS.write_text(use_lines())
        return
    folder = Path(words[0]) if words else TOP / "out" / "api"
    folder.mkdir(parents=True, exist_ok=True)
    for name, text in {"README": index(), **{it: page(it) for it in libraries()}}.items():
        (folder / f"{name}.md").write_text(text)


if __name__ == "__main__":
    main(sys.argv[1:])
