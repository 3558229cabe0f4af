#!/usr/bin/env python3
"""Tests installations of the package, and which library they load: test_install.py FOLDER.

FOLDER has libpigyelund.so. pip installs the package from a copy of its folder, from the source archive, in place, and
from a wheel with the library inside, all without a network. The Python needs setuptools, and the package wheel or
setuptools 70.1. The status is 1 if something differs.
"""

import os
import shutil
import subprocess
import sys
import tempfile
from collections.abc import Iterator
from pathlib import Path

from test_wheel import LIBRARY, NAME, Tree

CODE = "import pigyelund; print(pigyelund.answer('norm as 1'))"
LOAD = f"import pigyelund; pigyelund.load({LIBRARY!r}); print(pigyelund.answer('norm as 1'))"
RUNTIME = f"{LIBRARY}.1"
OPTIONS = ("-q", "--no-index", "--no-deps", "--no-build-isolation", "--disable-pip-version-check")
OLDER = "the library has version 0.1.0, and this package needs version "


class There:
    """An environment of Python in a folder."""

    def __init__(self, folder: Path) -> None:
        subprocess.run([sys.executable, "-m", "venv", "--system-site-packages", folder], check=True)
        self.python = str(folder / "bin" / "python")

    def run(self, *words: str, folder: str | None = None, **variables: str) -> "subprocess.CompletedProcess[str]":
        """Runs Python, with these variables in place of those that name libraries."""
        left = {it: os.environ[it] for it in os.environ.keys() - {"PIGYELUND_LIB", "LD_LIBRARY_PATH", "PYTHONPATH"}}
        environment = left | variables
        return subprocess.run([self.python, *words], cwd=folder, env=environment, capture_output=True, text=True)

    def install(self, *words: str) -> Iterator[str]:
        """Installs the package in place of another installation. Yields what fails."""
        self.run("-m", "pip", "uninstall", "-q", "-y", "pigyelund")
        done = self.run("-m", "pip", "install", *OPTIONS, *words)
        if done.returncode:
            yield f"pip install {' '.join(words)}: {done.stderr[-600:]}"

    def finds(self, folder: str | None = None, code: str = CODE, **variables: str) -> Iterator[str]:
        """Yields a text if the package does not find the library."""
        done = self.run("-c", code, folder=folder, **variables)
        if done.stdout != "AS1\n":
            yield f"{variables} finds no library: {done.stderr[-300:]}"

    def names(self, folder: Path, **variables: str) -> Iterator[str]:
        """Yields a text if the package does not say in one line that the library in a folder is older."""
        done = self.run("-c", CODE, **variables)
        if f"ImportError: {folder / LIBRARY}: {OLDER}" not in (done.stderr.splitlines() or [""])[-1]:
            yield f"{variables} does not name {folder}: {done.stdout}{done.stderr[-300:]}"


def older(folder: Path) -> Path:
    """Makes an older library in a folder. Returns the folder."""
    folder.mkdir(exist_ok=True)
    code = "unsigned pigy_version(void) { return 1000; }"
    words = ["gcc", "-shared", "-fPIC", "-x", "c", "-", "-o", str(folder / LIBRARY)]
    subprocess.run(words, input=code, text=True, check=True)
    return folder


def searches(there: There, folder: Path, library: str) -> Iterator[str]:
    """The package takes the named file, else the library in PIGYELUND_LIB, else its own, else that of the loader."""
    old, runtime = older(folder / "older"), folder / "runtime"
    package = Path(there.run("-c", "import pigyelund; print(pigyelund.__file__)").stdout.strip()).parent
    runtime.mkdir()
    shutil.copy(f"{library}/{LIBRARY}", runtime / RUNTIME)
    yield from there.finds(PIGYELUND_LIB=library)
    yield from there.finds(PIGYELUND_LIB=".", folder=library)
    yield from there.finds(LD_LIBRARY_PATH=library)
    for _ in range(2):  # the second time with an older libpigyelund.so beside libpigyelund.so.1
        yield from there.finds(LD_LIBRARY_PATH=str(runtime))
        if not (runtime / LIBRARY).exists():
            yield from there.finds(PIGYELUND_LIB=str(runtime))
        older(runtime)
    yield from there.names(old, PIGYELUND_LIB=str(old), LD_LIBRARY_PATH=library)
    # The path of a file is relative to the current folder. No other folder is searched.
    for each in (str(old), str(runtime)):
        yield from there.finds(folder=library, code=LOAD, PIGYELUND_LIB=str(old), LD_LIBRARY_PATH=each)
    older(package)
    yield from there.finds(PIGYELUND_LIB=library)
    yield from there.names(package, LD_LIBRARY_PATH=library)
    shutil.copy(f"{library}/{LIBRARY}", package)
    yield from there.finds(LD_LIBRARY_PATH=str(old))
    yield from there.names(old, PIGYELUND_LIB=str(old))
    (package / LIBRARY).unlink()


def faults(folder: Path, library: str) -> Iterator[str]:
    """Yields what differs."""
    there, tree = There(folder / "there"), Tree(folder / "a package")
    yield from there.install(str(tree.folder))
    yield from searches(there, folder, library)
    types = subprocess.run([Path(__file__).parent / "test_types.py", there.python], capture_output=True, text=True)
    if not shutil.which("mypy"):
        print("left out: the type hints of the installed package need mypy")
    elif types.returncode:
        yield types.stdout
    yield from there.install(str(tree.made("sdist")))
    yield from there.finds(PIGYELUND_LIB=library)
    yield from there.install("-e", str(tree.folder))
    yield from there.finds(PIGYELUND_LIB=library)
    imported = there.run("-c", "import pigyelund; print(pigyelund.__file__)").stdout.strip()
    if imported != str(tree.folder / "src" / "pigyelund" / "__init__.py"):
        yield f"pip install -e imports {imported}"
    wheel = Tree(folder / "with a library", f"{library}/{LIBRARY}").made("wheel")
    yield from there.install(str(wheel))
    yield from there.finds(LD_LIBRARY_PATH=str(folder / "older"))
    if not wheel.name.startswith(NAME):
        yield wheel.name


def main() -> int:
    """Makes the tests."""
    with tempfile.TemporaryDirectory() as name:
        found = [*faults(Path(name), os.path.abspath(sys.argv[1]))]
    for fault in found:
        print(fault)
    print(f"installations: {len(found)} faults")
    return 1 if found else 0


if __name__ == "__main__":
    sys.exit(main())
