"""Cases of tests/run/of_tests.py about the `#[test]` functions of the crates test_*.

Each of them has to reach an assertion, by the names of the functions that it calls. What all of them end with, the
functions of `checks.rt`, runs unproved with wrong expectations, each of which has to fail, and with right ones.
"""

import re
import shutil
import subprocess
from collections.abc import Iterator
from pathlib import Path

from groups import below
from top import TOP

FUNCTION = re.compile(r"^(#\[test\]\n(?:#.*\n)*)?(?:pub )?fn (\w+)(.*?)^\}", re.MULTILINE | re.DOTALL)
ASSERTION = re.compile(r"\bassert(?:_eq|_ne)?!\(")
IMPORT = re.compile(r"^use crate::((?:\w+::)*\w+)::(\w+|\{[^}]*\});", re.MULTILINE)
CALLED = re.compile(r"\b(\w+)(?:::<[^>]*>)?\(")
# Right and wrong calls of each function of `checks.rt`, the wrong one first.
ASKED = {
    "holds": ("holds(&rt, false)", "holds(&rt, true)"),
    "same": ("same(&rt, 1u32, 2u32)", "same(&rt, 1u32, 1u32)"),
    "is_shown": ('holds(&rt, is_shown(rt.alloc(), &1u32, "2"))', 'holds(&rt, is_shown(rt.alloc(), &1u32, "1"))'),
}


def unasserted(crate: Path) -> list[str]:
    """The tests of a crate that reach no assertion.

    A called name means the function of the same file or of the module that the file imports it from.
    """
    bodies: dict[tuple[str, str], str] = {}
    imports: dict[tuple[str, str], str] = {}
    tests = []
    for file in sorted(crate.glob("src/**/*.rt")):
        module, text = file.relative_to(crate / "src").with_suffix("").as_posix().replace("/", "::"), file.read_text()
        for of, names in IMPORT.findall(text):
            imports |= {(module, it): of for it in re.findall(r"\w+", names)}
        for is_test, name, body in FUNCTION.findall(text):
            bodies[module, name] = body
            if is_test:
                tests.append((module, name))
    reaching = {one for one, body in bodies.items() if ASSERTION.search(body)}
    grows = True
    while grows:
        more = {
            (module, name)
            for (module, name), body in bodies.items()
            if any((imports.get((module, it), module), it) in reaching for it in CALLED.findall(body))
        } - reaching
        reaching |= more
        grows = bool(more)
    return [f"{module}::{name}" for module, name in tests if (module, name) not in reaching]


def of_assertions(folder: Path) -> Iterator[tuple[str, str | None]]:
    """Each crate of tests, and which of its tests reach no assertion."""
    tested = {it for it in (TOP / "crates").glob("test_*/src/**/*.rt") if "#[test]" in it.read_text()}
    crates = sorted({TOP / "crates" / it.relative_to(TOP / "crates").parts[0] for it in tested})
    for crate in crates:
        found = unasserted(crate)
        yield f"{crate.name}: each test reaches an assertion", f"{found} reach none" if found else None
    if not crates:
        yield "crates of tests", "there are none"
    # Without the assertions of checks.rt most tests reach none.
    shutil.copytree(TOP / "crates" / "test_types" / "src", folder / "src")
    checks = folder / "src" / "checks.rt"
    checks.write_text(ASSERTION.sub("drop(", checks.read_text()))
    found = unasserted(folder)
    yield "test_types without its assertions", None if len(found) > 9 else f"{found} alone reach none"


def of_checks(folder: Path) -> Iterator[tuple[str, str | None]]:
    """Runs the functions of each `checks.rt` unproved in one crate: the wrong calls alone have to fail."""
    if shutil.which("rt") is None:
        print("left out: checks.rt of the crates of tests needs rt")
        return
    sources, ignored = folder / "crates" / "wrong" / "src", shutil.ignore_patterns("out")
    needed = below("test_support") | {"test_support"}
    for name in needed:
        shutil.copytree(TOP / "crates" / name, folder / "crates" / name, ignore=ignored)
    shutil.copy(TOP / "HANDLES", folder)
    rows = [row for row in (TOP / "crates.txt").read_text().splitlines() if row.split(":")[0] in needed]
    (folder / "crates.txt").write_text("\n".join([*rows, "wrong: test_support\n"]))
    sources.mkdir(parents=True)
    modules, tests, wanted = "#[cfg(test)]\nmod asked;\n", "", {}
    for file in sorted((TOP / "crates").glob("test_*/src/checks.rt")):
        name = file.parent.parent.name
        shutil.copy(file, sources / f"{name}.rt")
        modules += f"#[cfg(test)]\nmod {name};\n"
        for call in re.findall(r"^pub fn (\w+)", file.read_text(), re.MULTILINE):
            for body, ended in zip(ASKED[call], ("FAILED", "ok"), strict=True):
                test = f"{name}_{call}_{ended.lower()}"
                wanted[f"asked::{test}"] = ended
                body = re.sub(r"\b(holds|same|is_shown)\(", rf"crate::{name}::\1(", body)
                tests += f"#[test]\nfn {test}(rt: HostRuntime) {{\n    {body};\n}}\n"
    (sources / "lib.rt").write_text(f"//! Right and wrong expectations.\n#![tactic(auto)]\n\n{modules}")
    (sources / "asked.rt").write_text(tests)
    how = {"stdin": subprocess.DEVNULL, "stdout": subprocess.PIPE, "stderr": subprocess.STDOUT, "text": True}
    said = subprocess.run(["rt", "try", "--test"], cwd=folder / "crates" / "wrong", **how).stdout
    found = dict(re.findall(r"^test (\S+) \.\.\. (ok|FAILED)", said, re.MULTILINE))
    fault = None if wanted and found == wanted else f"{found} in place of {wanted}: {said[-400:]}"
    yield "checks.rt of the crates of tests: wrong expectations fail", fault
