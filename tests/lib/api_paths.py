"""Finds the public paths of a library's items, from its `mod` and `pub use` lines.

tests/run/api_pages.py shows these paths as headings, and writes a `use` line of each one into `crates/test_paths`,
which `rt ci` compiles.
"""

import re
from collections.abc import Iterator
from dataclasses import dataclass, field
from functools import cache
from pathlib import Path

from top import TOP
from groups import stands_on

ITEM = re.compile(r"pub (?:struct|enum|trait|type) (\w+)|pub (?:const |extern \"C\" )?fn (\w+)|pub const (\w+)")
# An item: the path of its module, and its name.
Key = tuple[tuple[str, ...], str]


@dataclass(eq=False)
class Module:
    """A module: its path, its file, its items, its submodules, and the names that its `use` lines import."""

    path: tuple[str, ...]
    file: Path
    parent: "Module | None" = None
    children: dict[str, "Module"] = field(default_factory=dict)
    public: set[str] = field(default_factory=set)
    items: list[str] = field(default_factory=list)
    imports: dict[str, tuple[str, ...]] = field(default_factory=dict)
    exports: dict[str, tuple[str, ...]] = field(default_factory=dict)

    def all(self) -> Iterator["Module"]:
        """Yields the module and those below it, in the order of their `mod` lines."""
        yield self
        for child in self.children.values():
            yield from child.all()

    def is_public(self) -> bool:
        """Returns whether the module's own path can be written outside its crate."""
        return self.parent is None or (self.path[-1] in self.parent.public and self.parent.is_public())


def names_of(tree: str) -> Iterator[tuple[str, tuple[str, ...]]]:
    """Yields the names that a `use` tree imports, each with its path."""
    front, brace, inside = tree.partition("{")
    if not brace:
        path, _, name = tree.strip().partition(" as ")
        parts = tuple(path.strip().removeprefix("::").split("::"))
        parts = parts[:-1] if parts[-1] == "self" and len(parts) > 1 else parts
        yield name.strip() or parts[-1], parts
        return
    depth, begin, inside = 0, 0, inside.rstrip().removesuffix("}")
    for at, letter in enumerate(f"{inside},"):
        depth += {"{": 1, "}": -1}.get(letter, 0)
        if letter == "," and depth == 0:
            if part := inside[begin:at].strip():
                yield from names_of(front.strip() + part)
            begin = at + 1


def read(module: Module, folder: Path) -> Module:
    """Reads a module's file and those of its submodules."""
    text = module.file.read_text()
    module.items = [found[1] or found[2] or found[3] for line in text.split("\n") if (found := ITEM.match(line))]
    for public, tree in re.findall(r"^(pub )?use ([^;]*);", text, re.M):
        names = dict(names_of(" ".join(tree.split())))
        module.imports |= names
        module.exports |= names if public else {}
    for public, name in re.findall(r"^(pub )?mod (\w+);", text, re.M):
        file = next(it for it in (folder / f"{name}.rt", folder / name / "mod.rt") if it.is_file())
        module.children[name] = read(Module((*module.path, name), file, module), folder / name)
        module.public |= {name} if public else set()
    return module


@cache
def root_of(crate: str) -> Module:
    """Returns the root module of a library."""
    folder = TOP / "crates" / crate / "src"
    return read(Module((crate,), folder / "lib.rt"), folder)


def meant_by(module: Module, path: tuple[str, ...]) -> Module | Key | None:
    """Returns the module or item that a path of a `use` line names. Returns None if it is outside the repository."""
    first, *rest = path
    if first == "crate":
        place: Module | Key | None = root_of(module.path[0])
    elif first in ("self", "super"):
        place = module if first == "self" else module.parent
    elif first in module.children or first in module.items:
        place = module.children.get(first) or (module.path, first)
    elif first in module.imports and module.imports[first] != path[:1]:
        place = meant_by(module, module.imports[first])
    else:
        place = root_of(first) if first in stands_on() else None
    for name in rest:
        if not isinstance(place, Module):
            return None
        if name in place.children:
            place = place.children[name]
        elif name in place.items:
            place = (place.path, name)
        else:
            place = meant_by(place, place.exports[name]) if name in place.exports else None
    return place


@cache
def public_paths(crate: str) -> dict[Key, str]:
    """Returns the shortest public path of each item that a library exports."""
    found: dict[Key, str] = {}
    todo: list[tuple[str, Module]] = [(crate, root_of(crate))]
    seen: set[Module] = set()
    for path, module in todo:
        if module in seen:
            continue
        seen.add(module)
        for name in module.items:
            found.setdefault((module.path, name), f"{path}::{name}")
        for name, target in module.exports.items():
            place = meant_by(module, target)
            if isinstance(place, Module):
                todo.append((f"{path}::{name}", place))
            elif place:
                found.setdefault(place, f"{path}::{name}")
        todo += [(f"{path}::{name}", module.children[name]) for name in module.children if name in module.public]
    return found
