#!/usr/bin/env python3
"""Tests the wheels and the source archive that setuptools makes: test_wheel.py LIBRARY ...

The wheels are made twice, in copies of the folder of the package, and the octets have to be the same. Their names,
metadata and files have to be right. The tag of the wheel with a LIBRARY inside has to be true of this ELF file: it is
for this processor, needs no later symbol version than the tag says, and no library that is not a part of glibc. The
status is 1 if something differs.
"""

import csv
import os
import re
import shutil
import subprocess
import sys
import tarfile
import tempfile
import zipfile
from collections.abc import Iterator
from email import message_from_bytes
from pathlib import Path

HERE = Path(__file__).resolve().parents[1]
TOP = HERE.parents[1]
NAME = f"pigyelund-{(TOP / 'VERSION').read_text().strip()}"
LIBRARY = "libpigyelund.so"
MODULES = ("__init__", "_bindings", "_library", "arrays", "errors", "resources", "table", "values")
PACKAGE = {f"pigyelund/{name}.py" for name in MODULES} | {"pigyelund/py.typed"}
OF_GLIBC = {"libc.so.6", "libm.so.6", "libpthread.so.0", "libdl.so.2", "librt.so.1", "ld-linux-x86-64.so.2"}
OF_GLIBC |= {"ld-linux-aarch64.so.1"}
PROCESSORS = {"Advanced Micro Devices X86-64": "x86_64", "AArch64": "aarch64"}
TIME = "1732600000"


class Tree:
    """A copy of the folder of the package, with or without the library."""

    def __init__(self, folder: Path, library: str | None = None) -> None:
        self.folder = folder
        skipped = shutil.ignore_patterns("__pycache__", ".*", LIBRARY, "build", "*.egg-info")
        shutil.copytree(HERE, folder, ignore=skipped)
        if library:
            shutil.copy(library, folder / "src" / "pigyelund" / LIBRARY)

    def made(self, kind: str, **variables: str) -> Path:
        """Returns the file that setuptools makes: kind is `wheel` or `sdist`."""
        target = self.folder.parent / f"{kind} of {self.folder.name}"
        target.mkdir(exist_ok=True)
        code = f"from setuptools import build_meta; print(build_meta.build_{kind}({str(target)!r}))"
        environment = os.environ | {"SOURCE_DATE_EPOCH": TIME, "PYTHONDONTWRITEBYTECODE": "1"} | variables
        words = [sys.executable, "-W", "ignore", "-c", code]
        done = subprocess.run(words, cwd=self.folder, env=environment, capture_output=True, text=True, check=False)
        if done.returncode:
            raise SystemExit(f"build_{kind}: {done.stdout}{done.stderr}")
        return target / done.stdout.splitlines()[-1]


def same_octets(folder: Path, library: str) -> Iterator[str]:
    """The same files make the same octets, at another time, in another folder, zone and order of hashes."""
    for each in (None, library):
        first, second = Tree(folder / f"first {bool(each)}", each), Tree(folder / f"second {bool(each)}", each)
        for path in second.folder.rglob("*"):
            os.utime(path, (86400 * 365 * 30, 86400 * 365 * 30))
        one = first.made("wheel", TZ="UTC", PYTHONHASHSEED="1", LC_ALL="C")
        two = second.made("wheel", TZ="Asia/Tokyo", PYTHONHASHSEED="2", LC_ALL="C.UTF-8")
        if one.name != two.name or one.read_bytes() != two.read_bytes():
            yield f"build_wheel makes other octets: {one}, {two}"


def of_metadata(octets: bytes) -> Iterator[str]:
    """What is wrong in the metadata of the package."""
    found = message_from_bytes(octets)
    wanted = {"Name": "pigyelund", "Version": NAME.split("-")[1], "Description-Content-Type": "text/markdown"}
    for name, value in wanted.items():
        if str(found[name]).split(";")[0] != value:
            yield f"{name}: {found[name]}"
    least = re.findall(r'^requires-python = "(.*)"$', (HERE / "pyproject.toml").read_text(), re.MULTILINE)
    if [found["Requires-Python"]] != least or found["Requires-Dist"] or found.get_all("License-File") != ["LICENSE"]:
        yield f"Requires-Python: {found['Requires-Python']}, Requires-Dist: {found['Requires-Dist']}"
    body = found.get_payload()
    if not isinstance(body, str) or body.strip() != (HERE / "README.md").read_text().strip():
        yield "the description is not README.md"
    if links := [it for it in re.findall(r"\]\(([^)]*)\)", str(body)) if "://" not in it]:
        yield f"the description has links to files: {links}"


def of_wheel(file: Path, library: str | None, tag: str) -> Iterator[str]:
    """What is wrong in a wheel that should have a tag, and the library or not."""
    info = f"{NAME}.dist-info"
    if file.name != f"{NAME}-{tag}.whl":
        yield f"{file.name} does not have the tag {tag}"
    with zipfile.ZipFile(file) as wheel:
        contents = {it: wheel.read(it) for it in wheel.namelist()}
    own = {it for it in contents if not it.startswith(info)}
    if own != PACKAGE | ({f"pigyelund/{LIBRARY}"} if library else set()):
        yield f"{file.name} has {sorted(own)}"
    if library and contents.get(f"pigyelund/{LIBRARY}") != Path(library).read_bytes():
        yield f"{file.name} has another library"
    if {row[0] for row in csv.reader(contents[f"{info}/RECORD"].decode().splitlines())} != contents.keys():
        yield f"{file.name}: RECORD"
    about = message_from_bytes(contents[f"{info}/WHEEL"])
    if (about["Root-Is-Purelib"], about.get_all("Tag")) != (str(not library).lower(), [tag]):
        yield f"{file.name}: WHEEL is {about}"
    licenses = [octets for name, octets in contents.items() if name.endswith("/LICENSE")]
    if licenses != [(TOP / "LICENSE").read_bytes()]:
        yield f"{file.name}: the license is another one"
    yield from (f"{file.name}: {it}" for it in of_metadata(contents[f"{info}/METADATA"]))


def tag_of(library: str) -> tuple[str, str]:
    """Returns the least platform tag of a library by what readelf prints, and the reason if it has none."""
    printed = subprocess.run(["readelf", "-dVhW", library], capture_output=True, text=True, check=True).stdout
    needed = {*re.findall(r"\(NEEDED\).*\[(.*)\]", printed)}
    versions = re.findall(r"Name: (\w+?)_(\d+)\.(\d+)\S*  Flags", printed.partition("needs section")[2])
    named = re.findall(r"Name: (\S+)  Flags", printed.partition("needs section")[2])
    faults = [*(needed - OF_GLIBC), *re.findall(r"\(R(?:UN)?PATH\)", printed)]
    faults += [it for it in named if not re.fullmatch(r"GLIBC_\d+\.\d+(\.\d+)?", it)]
    machine = re.findall(r"Machine: +(.*)", printed)[0]
    if machine not in PROCESSORS or "DYN (Shared object" not in printed:
        faults.append(f"no shared library for {' or '.join(PROCESSORS)}")
    major, minor = max((int(major), int(minor)) for _, major, minor in [("", 2, 5), *versions])
    return f"manylinux_{major}_{minor}_{PROCESSORS.get(machine)}", ", ".join(faults)


def of_tag(tag: str, library: str) -> Iterator[str]:
    """What is wrong in the tag of a wheel with a library: it may name a later glibc than the library needs."""
    least, fault = tag_of(library)
    found = re.fullmatch(r"py3-none-manylinux_(\d+)_(\d+)_(\w+)", tag)
    needed = re.fullmatch(r"manylinux_(\d+)_(\d+)_(\w+)", least)
    if fault:
        yield f"no manylinux tag is true of {library}: {fault}"
    if not found or not needed or found[3] != needed[3] or [*map(int, found.groups()[:2])] < [
        *map(int, needed.groups()[:2])
    ]:
        yield f"{library} needs {least}, and the tag is {tag}"


def wrong_libraries(folder: Path, last: str) -> Iterator[str]:
    """The test of the tag finds another processor, a later symbol version, another library, and a run path."""
    if not [*of_tag("py3-none-manylinux_2_34_riscv64", last)]:
        yield f"the tag of another processor is true of {last}"
    octets = Path(last).read_bytes()
    for at, other in enumerate((octets[:18] + b"\xf3" + octets[19:], octets.replace(b"libc.so.6", b"libc.so\0\0"))):
        (folder / "other").write_bytes(other)
        try:
            Tree(folder / f"wrong {at}", str(folder / "other")).made("wheel")
            yield f"setuptools makes a wheel of the wrong library {at}"
        except SystemExit as error:
            if "expected a library for glibc on x86_64 or aarch64" not in str(error):
                yield f"the wrong library {at}: {error}"
    call = "int {0}(); int f(void) {{ return {0}(); }}"
    cases = [(call.format("abs"), "-Wl,-rpath,/opt"), ("int f;", "-Wl,--no-as-needed,-lgcc_s")]
    cases += [(call.format("strlcpy"), ""), (call.format("__isoc23_strtol"), "")]
    for text, option in cases:
        words = ["gcc", "-fno-builtin", "-w", "-shared", "-fPIC", "-x", "c", "-", "-o", str(folder / "made.so")]
        done = subprocess.run([*words, *option.split()], input=text, capture_output=True, text=True, check=False)
        listed = subprocess.run(["readelf", "-VW", folder / "made.so"], capture_output=True, text=True).stdout
        if done.returncode or not option and not re.search(r"GLIBC_2\.(3[5-9]|[4-9]\d)", listed):
            continue  # this glibc has no such symbol
        if not [*of_tag("py3-none-manylinux_2_34_x86_64", str(folder / "made.so"))]:
            yield f"the tag is true of a library with {text} {option}"


def contents(folder: Path, library: str) -> Iterator[str]:
    """The wheels have the package and the library alone. The source archive makes the same wheel, without a library."""
    tree = Tree(folder / "a tree")
    (tree.folder / "src" / "pigyelund" / "notes.txt").write_text("no file of the package")
    pure = tree.made("wheel")
    yield from of_wheel(pure, None, "py3-none-any")
    held = Tree(folder / "with a library", library).made("wheel")
    yield from of_wheel(held, library, f"py3-none-manylinux_2_34_{tag_of(library)[0].split('_', 3)[3]}")
    yield from of_tag(held.name.removeprefix(f"{NAME}-").removesuffix(".whl"), library)
    sdist = tree.made("sdist")
    with tarfile.open(sdist) as archive:
        archive.extractall(folder / "unpacked")
    unpacked = Tree.__new__(Tree)
    unpacked.folder = folder / "unpacked" / NAME
    with zipfile.ZipFile(unpacked.made("wheel")) as one, zipfile.ZipFile(pure) as two:
        if {it: one.read(it) for it in one.namelist()} != {it: two.read(it) for it in two.namelist()}:
            yield "the wheel of the source archive is another one"


def main() -> int:
    """Makes the tests."""
    libraries = [os.path.abspath(it) for it in sys.argv[1:]]
    found: list[str] = []
    with tempfile.TemporaryDirectory() as name:
        for at, library in enumerate(libraries):
            for test in (same_octets, contents):
                (folder := Path(name) / f"{test.__name__} {at}").mkdir()
                found += test(folder, library)
        found += wrong_libraries(Path(name), libraries[-1])
    for fault in found:
        print(fault)
    print(f"wheels: {len(found)} faults")
    return 1 if found else 0


if __name__ == "__main__":
    sys.exit(main())
