"""Tests of what hostile arguments and signals do, and of the examples of the docstrings. `test.py` runs them.

Each test yields a text for each fault.
"""

import ctypes
import doctest
import gc
import io
import os
import re
import struct
import subprocess
import sys
import tempfile
import tracemalloc
import warnings
from collections.abc import Callable, Iterator
from contextlib import redirect_stdout
from ipaddress import IPv4Network
from pathlib import Path
from typing import Any

import pigyelund
from pigyelund import (
    Asn,
    Certificate,
    Extensions,
    Resources,
    Route,
    Table,
    Vrp,
    VrpFileError,
    _bindings,
    _library,
    answer,
    apply_slurm,
    load,
    read_vrps,
    resources,
    table,
    values,
)
from spies import Counted, spied
from test_slurm import EMPTY

README = Path(__file__).resolve().parents[1] / "README.md"
TEN = IPv4Network("10.0.0.0/8")


def interrupted(_: Path) -> Iterator[str]:
    """An exception of a signal handler loses no handle that a call has made."""
    counted = Counted()
    ends: list[str] = []

    def around(name: str, call: Callable[..., Any], words: tuple[Any, ...]) -> Any:
        found = counted.around(name, call, words)
        if name in ends:
            raise KeyboardInterrupt
        return found

    extensions = Extensions(ip=bytes.fromhex("300c300a0402000130040302000a"))
    with spied(around), Table([Vrp(TEN, 1)]) as made, Table() as _:
        ten = Resources([TEN])
        asked: list[tuple[str, Callable[[], object]]] = [
            ("pigy_table_new", lambda: Table([Vrp(TEN, 1)])),
            ("pigy_table_with_changes", lambda: made.with_changes()),
            ("pigy_resources_read", lambda: Resources.read(extensions)),
            ("pigy_resources_from_text", lambda: Resources.from_text(v4="10.0.0.0/8")),
            ("pigy_resources_verify", lambda: ten.verify(extensions)),  # noqa: F821
            ("pigy_resources_verify_path", lambda: ten.verify_path([Certificate(extensions)])),  # noqa: F821
            ("pigy_resources_union", lambda: ten | ten),  # noqa: F821
            ("pigy_resources_symmetric_difference", lambda: ten ^ ten),  # noqa: F821
        ]
        gc.collect()
        before = len(counted.held)
        for name, call in asked:
            ends[:] = [name]
            try:
                yield f"{name} returns {call()}"
            except KeyboardInterrupt:
                pass
            gc.collect()
            if len(counted.held) != before or counted.faults:
                yield f"{name}: {len(counted.held) - before} handles are left after an exception, {counted.faults}"
        ends.clear()
        del ten
    gc.collect()
    if counted.faults:
        yield f"{counted.faults[:3]}"


class Growing(list[Any]):
    """A list that grows whenever its length is asked, as another thread may make it grow."""

    def __len__(self) -> int:
        length = super().__len__()
        self.append(self[0])
        return length

    def __iter__(self) -> Iterator[Any]:
        yield from super().__iter__()
        self.append(self[0])


def grown(_: Path) -> Iterator[str]:
    """A list of VRPs or of routes that grows during a call never has C read past the array."""
    found: list[tuple[str, int, int]] = []
    places = {"pigy_table_new": 0, "pigy_slurm_apply": 2, "pigy_table_with_changes": 1, "pigy_table_revalidate": 2}

    def around(name: str, call: Callable[..., Any], words: tuple[Any, ...]) -> Any:
        at = places.get(name)
        if at is not None:
            found.append((name, len(words[at]), words[at + 1]))
        if name == "pigy_table_validate_routes":  # the array of routes is a pointer
            found.append((name, 1, words[2]))
        return call(*words)

    vrps, routes = Growing([Vrp(TEN, 1)]), Growing([Route(TEN, 1)])
    with Table() as made, spied(around):
        Table(vrps).close()
        apply_slurm(EMPTY, Growing([Vrp(TEN, 1)]))
        made.with_changes(announced=Growing([Vrp(TEN, 1)])).close()
        made.revalidate_octets(made, routes)
        made.validate_octets(Growing([Route(TEN, 1)]), reasons=True)
    wanted = [(name, 1, 1) for name in (*places, "pigy_table_validate_routes")]
    if found != wanted:
        yield f"{found} of growing lists"


class Tagged(Vrp):
    """A subclass with an attribute of its own."""

    tag = 1


def subclasses(_: Path) -> Iterator[str]:
    """A value of a subclass is no value of its base. A table takes it."""
    one = Tagged(TEN, 1)
    if one == Vrp(TEN, 1) or one != Tagged(TEN, 1) or one == Tagged(TEN, 2) or hash(one) != hash(Tagged(TEN, 1)):
        yield "VRPs of a subclass"
    with Table([one]) as made:
        if [*made] != [Vrp(TEN, 1)]:
            yield f"a table of {[*made]}"


def invalid_files(_: Path) -> Iterator[str]:
    """An invalid file makes no object for each VRP that the buffer could have."""
    file = b"no file of VRPs\n" * 20000
    tracemalloc.start()
    try:
        yield f"{read_vrps(file)} of an invalid file"
    except VrpFileError:
        peak = tracemalloc.get_traced_memory()[1]
        if peak > 2 * len(file):
            yield f"an invalid file of {len(file)} octets takes {peak} octets of memory"
    finally:
        tracemalloc.stop()


def lasting_views(_: Path) -> Iterator[str]:
    """One VRP of a file keeps only its own memory."""
    lines = b"".join(b"AS%d,10.0.0.0/8,8\n" % at for at in range(1000))
    vrp = read_vrps(b"ASN,IP Prefix,Max Length\n" + lines)[0]
    held = [it for it in gc.get_referents(vrp) if not isinstance(it, type)]
    if sum(map(sys.getsizeof, held)) > 100:
        yield f"a VRP keeps {held}"


class Named(ctypes.Structure):
    """A struct that has another name for a field of a VRP."""

    _fields_ = [("Origin" if name == "asn" else name, kind) for name, kind in _bindings.Vrp._fields_]


class Other(ctypes.BigEndianStructure):
    """A struct with the fields of a VRP whose AS number is in the other byte order."""

    _fields_ = _bindings.Vrp._fields_


class Owning(ctypes.Structure):
    """A struct with a Python object, as large as three VRPs or routes."""

    _fields_ = [("first", ctypes.c_uint8 * 32), ("object", ctypes.py_object), ("last", ctypes.c_uint8 * 32)]


def formats(_: Path) -> Iterator[str]:
    """A buffer of structs needs the fields of a VRP or a route. One of Python objects has pointers, and is refused."""
    octets = bytes(Vrp(TEN, 1)) + bytes(Vrp(TEN, 2))
    right = (_bindings.Vrp * 2).from_buffer_copy(octets)
    for buffer in (right, ((_bindings.Vrp * 2) * 1)(right), memoryview(right), octets, memoryview(octets).cast("I")):
        with Table(buffer) as made:
            if [int(it.asn) for it in made] != [2, 1]:
                yield f"a table of {[*made]} of {buffer!r}"
    with Table(memoryview(right)[1:]) as made, Table(memoryview(octets)[::1][24:]) as other:
        if [*made] != [Vrp(TEN, 2)] or [*other] != [*made]:
            yield f"{[*made]} of a part"
    objects = (ctypes.py_object * 3)(1, 2, 3)
    wrong: list[Any] = [objects, (Named * 1)(), (Other * 1)(), (Owning * 1)(), ((Owning * 1) * 1)()]
    wrong += [(_bindings.Covering * 6)(), (_bindings.Prefix * 4)(), (_bindings.AsRange * 3)()]
    with Table() as made:
        for item in wrong:
            for call in (Table, made.validate_routes, lambda it: made.with_changes(announced=it)):
                try:
                    yield f"{call(item)} of {item!r}"
                except TypeError:
                    pass
        for call, item in ((made.validate_routes, right), (Table, (_bindings.Route * 2)())):
            try:
                yield f"{call(item)} of {item!r}"
            except TypeError:
                pass


def sockets(_: Path) -> Iterator[str]:
    """A struct with AF_INET or AF_INET6 as its family, or without one, is malformed."""
    with Table([Vrp(TEN, 1), Vrp("::/0-128 AS1")]) as made:
        for family in (0, 1, 2, 3, 5, 10, 255):
            octets = struct.pack("16sIBBxx", TEN.network_address.packed, 1, family, 8)
            if made.validate_octets(octets, allow_malformed=True) != b"\xff":
                yield f"a route of the family {family} has a validity"
            for call in (made.validate_octets, made.validate_routes):
                try:
                    yield f"a route of the family {family}: {call(octets)!r}"
                except pigyelund.OriginError as reason:
                    if (reason.index, reason.item) != (0, octets):
                        yield f"{reason!r} of the family {family}"


def incomplete(_: Path) -> Iterator[str]:
    """A library that lacks a call raises `ImportError`."""
    with tempfile.TemporaryDirectory() as name:
        file = Path(name, _library.NAME)
        code = f"unsigned pigy_version(void) {{ return {_bindings.VERSION_NUMBER}; }}"
        subprocess.run(["gcc", "-shared", "-fPIC", "-x", "c", "-", "-o", file], input=code, text=True, check=True)
        try:
            yield f"{_library.open_calls(str(file), '')} of a library without calls"
        except ImportError as reason:
            if "pigy_status_text" not in str(reason) or _library.HOW_TO_GET not in str(reason):
                yield f"{reason!r} of a library without calls"
            if reason.path != str(file):
                yield f"{reason.path} is the path of {file}"


def other_libraries(folder: Path) -> Iterator[str]:
    """A second library is refused, and the first one is kept. The path of the first one is accepted."""
    name = _library._loaded._name
    load()
    load(name)
    load(Path(name))
    load(os.path.relpath(name))
    another = (folder / "another").absolute()
    for path in (another, os.path.relpath(another)):
        try:
            yield f"{load(path)} of another library"
        except RuntimeError as reason:
            if str(reason) != f"{another}: another library is loaded, {name}":
                yield f"{reason}"


class Short(bytes):
    """Octets that say another length."""

    def __len__(self) -> int:
        return 1


def lengths(_: Path) -> Iterator[str]:
    """The number of the octets that are there counts, and not what `len` says."""
    wanted = Resources.from_text(asn="1-3, 7")
    asn = wanted.der().asn
    extensions = Extensions(Short(asn or b""))
    if Resources.read(extensions) != wanted or wanted.verify(extensions) != wanted:
        yield f"octets of a false length: {Resources.read(extensions)}"
    if wanted.verify_path([Certificate(extensions)]) != wanted:
        yield "a path with octets of a false length"
    line = Short(b"AS1,10.0.0.0/8,8\n")
    if read_vrps(line) != [Vrp(TEN, 1)] or apply_slurm(Short(EMPTY), [Vrp(TEN, 1)]) != [Vrp(TEN, 1)]:
        yield "a file of a false length"


def single_calls(_: Path) -> Iterator[str]:
    """A result of more than 256 octets takes one call of C, and so does the set of one list."""
    text = ", ".join(str(it) for it in range(0, 2000, 2))
    many = Resources.from_text(asn=text)
    extensions = many.der()
    counts: list[str] = []

    def around(name: str, call: Callable[..., Any], words: tuple[Any, ...]) -> Any:
        if not name.endswith("_free"):
            counts.append(name)
        return call(*words)

    asks: list[Callable[[], object]] = [
        lambda: Resources.from_text(asn=text),
        lambda: many | many,
        lambda: many.verify(extensions),
        lambda: many.verify_path([Certificate(extensions)]),
        lambda: answer(f"norm as {text}"),
        lambda: Asn(1) in many,
        lambda: TEN in many,
        lambda: many == many,
    ]
    for at, ask in enumerate(asks):
        counts.clear()
        with spied(around):
            ask()
        if len(counts) != 1:
            yield f"result {at} takes the calls {counts}"


def closed(_: Path) -> Iterator[str]:
    """`with` on a closed table raises `ValueError`."""
    made = Table()
    made.close()
    try:
        with made:
            yield "`with` on a closed table raises nothing"
    except ValueError:
        pass


def numbers_of_ranges(_: Path) -> Iterator[str]:
    """`asns` has both ends of each range, and makes no list of all numbers."""
    found = [*Resources.from_text(asn="1-3, 7").asns()]
    if found != [Asn(1), Asn(2), Asn(3), Asn(7)]:
        yield f"AS numbers of 1-3, 7: {found}"
    if next(Resources.from_text(asn="0-4294967295").asns()) != Asn(0):
        yield "the first AS number"


def examples(_: Path) -> Iterator[str]:
    """The examples of the docstrings print what they show."""
    count = 0
    modules = [pigyelund, resources, table, values, _library]
    if has_numpy():
        from pigyelund import arrays

        modules.append(arrays)
    for module in modules:
        names = {**vars(pigyelund), **vars(module)}
        for test in doctest.DocTestFinder(exclude_empty=True).find(module, globs=names):
            said: list[str] = []
            found = doctest.DocTestRunner(verbose=False).run(test, out=said.append)
            count += found.attempted
            if found.failed:
                yield f"the docstring of {test.name}: {''.join(said)}"
    if count < 25:
        yield f"{count} lines of docstrings' examples were run"
    (program,) = re.findall(r"^```python\n(.*?)^```$", README.read_text(), re.MULTILINE | re.DOTALL)
    printed = io.StringIO()
    with redirect_stdout(printed):
        exec(program, {})
    if printed.getvalue().split() != re.findall(r"  # (.*)$", program, re.MULTILINE):
        yield f"README.md prints {printed.getvalue()}"


def has_numpy() -> bool:
    """Returns whether numpy is installed."""
    try:
        import numpy  # noqa: F401
    except ImportError:
        return False
    return True


def without_numpy(_: Path) -> Iterator[str]:
    """The package does not import numpy or pandas."""
    code = "import sys, pigyelund; sys.exit(bool({'numpy', 'pandas'} & {*sys.modules}))"
    environment = {"PYTHONPATH": str(Path(pigyelund.__file__).parent.parent)}
    if subprocess.run([sys.executable, "-c", code], env=environment, check=False).returncode:
        yield "import pigyelund imports numpy or pandas"


def arrays_of_numpy(_: Path) -> Iterator[str]:
    """Arrays of numpy make tables and routes, and come out of them. A malformed row has a code, and no other row."""
    if not has_numpy():
        print("left out: arrays of numpy need numpy")
        return
    import numpy
    from pigyelund import arrays

    vrps = [Vrp(TEN, asn, 16) for asn in (3, 2, 1)] + [Vrp("2001:db8::/32-48 AS4")]
    file = b"ASN,IP Prefix,Max Length\n" + b"".join(
        f"{it.asn},{it.prefix},{it.max_len}\n".encode() for it in vrps
    )
    found = arrays.vrps(file)
    if found.dtype != arrays.VRP or found.tobytes() != b"".join(map(bytes, vrps)) or not found.flags.writeable:
        yield f"{found}"
    texts = ["10.0.0.0/16", "10.0.0.1/16", "10.0.0.0/8", "::/0", "2001:db8::/48", "no prefix", "10.0.0.0/33", "::/129"]
    texts += ["10.0.0.0", "10.0.0.0/-1", "10.0.0.0/٣", "2001:db8::1/48", "10.0.0.0/256", "10.0.0.0/8", "10.0.0.0/8 "]
    asns: list[Any] = [1, 1, 9, 1, 4, 1, 1, 1, 1, 1, 1, 1, 1, 2**32, 1]
    routes = arrays.routes(texts, numpy.array(asns))
    with Table(found) as made, Table(vrps) as wanted:
        if made.octets() != wanted.octets() or arrays.vrps(made).tobytes() != made.octets():
            yield f"{[*made]} of an array"
        codes = [0, 255, 2, 1, 0] + [255] * 10
        reasons = [0, 0, 1] + [0] * 12
        if arrays.validate(made, routes).tolist() != codes:
            yield f"{arrays.validate(made, routes).tolist()} in place of {codes}"
        both = arrays.validate(made, routes, reasons=True)
        if [it.tolist() for it in both] != [codes, reasons] or {it.dtype.str for it in both} != {"|u1"}:
            yield f"{both} in place of {codes} and {reasons}"
        long = arrays.routes(["10.0.0.0/24", "10.0.0.0/24", "2001:db8::/64"], [1, 9, 4])
        if [it.tolist() for it in arrays.validate(made, long, reasons=True)] != [[2, 2, 2], [2, 1, 2]]:
            yield "reasons of an array"
        fine = routes[[at for at, code in enumerate(codes) if code != 255]]
        if [it.value for it in made.validate_routes(fine)] != [it for it in codes if it != 255]:
            yield "routes of an array"
        if arrays.validate(made, routes[::-1]).tolist() != codes[::-1] or arrays.validate(made, routes[:0]).size:
            yield "a view of an array"
        indices, covering = arrays.covering(made, routes)
        each = [[] if code == 255 else made.covering(it) for code, it in zip(codes, routes_of(routes, codes))]
        if covering.dtype != arrays.COVERING or indices.tolist() != [at for at, it in enumerate(each) for _ in it]:
            yield f"{indices} of covering VRPs"
        if [(it["vrp"].tobytes()[:23], it["mismatch"]) for it in covering] != [
            (bytes(it.vrp)[:23], it.mismatch.value) for one in each for it in one
        ]:
            yield f"{covering} in place of {each}"
        if any(it.size for it in arrays.covering(made, routes[:0])):
            yield "covering VRPs of no routes"
        many = numpy.tile(routes, 1000)
        if [it.tolist() for it in arrays.validate(made, many, reasons=True)] != [codes * 1000, reasons * 1000]:
            yield "many routes"
        packed = numpy.dtype([(name, arrays.ROUTE[name]) for name in arrays.ROUTE.names])
        wide = arrays.ROUTE.newbyteorder()
        for array in (routes.astype(packed), routes.astype(wide), found, routes.astype(object), routes.tolist()):
            try:
                yield f"{made.validate_octets(array)!r} of {array.dtype}"
            except (TypeError, ValueError):
                pass
    if arrays.vrps(b"AS1,10.0.0.0/8,8\n").shape != (1,) or arrays.routes([], []).shape != (0,):
        yield "shapes of arrays"


def routes_of(rows: Any, codes: list[int]) -> list[Route]:
    """Returns the routes of an array. A malformed one, whose code is 255, is any route."""
    none = Route("::/0 AS0")
    return [none if code == 255 else Route._of_struct(it.tobytes()) for code, it in zip(codes, rows, strict=True)]


def covering_of_routes(_: Path) -> Iterator[str]:
    """`covering_octets` has for each route the VRPs of `covering`, also if these are many."""
    asked = [Route("10.0.0.0/16 AS7"), Route("11.0.0.0/8 AS1"), Route("10.0.0.0/8 AS1"), Route("::/0 AS1")]
    with Table([Vrp(TEN, asn, 9) for asn in range(300)] + [Vrp("10.0.0.0/16", 7)]) as made:
        each = [made.covering(it) for it in asked]
        for given in (asked, iter(asked), b"".join(map(bytes, asked))):
            counts, octets = made.covering_octets(given)
            found = [octets[at : at + 23] + octets[at + 24 : at + 28] for at in range(0, len(octets), 28)]
            wanted = [bytes(it.vrp)[:23] + struct.pack("I", it.mismatch.value) for one in each for it in one]
            if (counts, found) != ([301, 0, 300, 0], wanted):
                yield f"{counts}, {len(octets)} octets of covering VRPs"
        wrong = bytes(asked[0])[:20] + b"\2" + bytes(asked[0])[21:]
        buffer = bytes(asked[0]) + wrong + bytes(asked[2])
        if made.covering_octets(buffer, allow_malformed=True)[0] != [301, 0, 300]:
            yield "a malformed route has covering VRPs"
        try:
            yield f"{made.covering_octets(buffer)} of a malformed route"
        except pigyelund.OriginError as reason:
            if (reason.index, reason.item) != (1, wrong):
                yield f"{reason!r} of a malformed route"
    try:
        yield f"{made.covering_octets(asked)} of a closed table"
    except ValueError:
        pass


def cells_of_asns(_: Path) -> Iterator[str]:
    """Each cell of a column of AS numbers counts on its own. An invalid one makes one row malformed, and no other."""
    if not has_numpy():
        print("left out: columns of AS numbers need numpy")
        return
    import numpy
    from pigyelund import arrays

    last = 2**32 - 1
    valid: list[Any] = [64496, "64496", "AS64496", "as64496", " AS64496 ", Asn(64496), 64496.0, numpy.str_("AS64496")]
    valid += [numpy.float64(64496), numpy.int64(64496), numpy.uint32(64496), numpy.uint8(0), 0, "AS0", Asn(0), 0.0]
    valid += [last, str(last), f"AS{last}", float(last), Asn(last)]
    invalid: list[Any] = ["AS64496x", "", "AS", "AS 1", "1.10", "1.0", "1,2", "1-1", "{1}", "{1,2}", "inherit", "٣"]
    invalid += ["AS4294967296", "-1", "nan", "\ud800", "1\0", b"64496", -1, 2**32, -1.0, 2.0**32, 1.5, numpy.float32(1)]
    invalid += [float("nan"), float("inf"), None, True, False, [1], (), object(), 1 + 0j]
    numbers = [64496] * 11 + [0] * 5 + [last] * 5
    for at, wrong in enumerate(invalid):
        column = [*valid[: at % 8], wrong, *valid[at % 8 :]]
        found = arrays.routes(["10.0.0.0/8"] * len(column), column)
        wanted = [*zip(numbers, [4] * len(numbers), strict=True)]
        wanted.insert(at % 8, (0, 0))
        if [*zip(found["asn"].tolist(), found["family"].tolist(), strict=True)] != wanted:
            yield f"{found} of a column with {wrong!r}"
        if any(found[at % 8].tobytes()):
            yield f"{found[at % 8]} of {wrong!r}"
    asked: list[str] = []

    def around(name: str, call: Callable[..., Any], words: tuple[Any, ...]) -> Any:
        asked.append(name)
        return _bindings.Status.MEMORY if words[0] == b"9" else call(*words)

    with spied(around):
        arrays.routes(["10.0.0.0/8"] * 1000, ["AS64496", "AS64496x"] * 500)
        if asked.count("pigy_resources_from_text") != 2:
            yield f"the library reads two texts {asked.count('pigy_resources_from_text')} times"
        try:
            yield f"{arrays.routes(['10.0.0.0/8'], ['9'])} without memory"
        except pigyelund.OutOfMemoryError:
            pass


def columns_of_pandas(_: Path) -> Iterator[str]:
    """A column that pandas reads as texts, as floats or in chunks of both loses its invalid rows alone."""
    try:
        import pandas
    except ImportError:
        print("left out: columns of pandas need pandas")
        return
    from pigyelund import arrays

    cases = [(["1", wrong, "2"], [1, 0, 2]) for wrong in ("AS1x", "", "1.10", "AS", "{1,2}", "-1", "4294967296")]
    cases += [(["AS1", "1", "AS2", "", "x"], [1, 1, 2, 0, 0]), (["1", "2"], [1, 2])]
    for cells, wanted in cases:
        file = "prefix;asn\n" + "".join(f"10.0.0.0/8;{it}\n" for it in cells)
        words: dict[str, Any]
        for words in ({}, {"dtype": str}, {"low_memory": False}, {"keep_default_na": False}):
            with warnings.catch_warnings(record=True):  # pandas warns of a column with several types
                read = pandas.read_csv(io.StringIO(file), sep=";", **words)
            for frame in (read, read.convert_dtypes()):
                found = arrays.routes(frame["prefix"], frame["asn"])["asn"].tolist()
                if found != wanted:
                    differ = [it for it in zip(cells, found, wanted, strict=True) if it[1] != it[2]]
                    yield f"{len(differ)} cells by {words}, {frame['asn'].dtype}: {differ[:3]}"
    many = 200000  # pandas reads rows of eight columns in chunks of 131072, each with its own type
    with warnings.catch_warnings(record=True):
        file = "a,b,c,d,e,f,g,asn\n" + ",,,,,,,1\n" * many + ",,,,,,,AS2\n,,,,,,,x\n"
        column = pandas.read_csv(io.StringIO(file))["asn"]
    if {type(it) for it in column} != {int, str}:
        yield "pandas reads a long column as one type"
    if arrays.routes(["10.0.0.0/8"] * len(column), column)["asn"].tolist() != [1] * many + [2, 0]:
        yield "a column of two chunks"


OF_MISUSE = (interrupted, grown, subclasses, invalid_files, lasting_views, formats, sockets, incomplete)
OF_MISUSE += (other_libraries, lengths, single_calls, closed, numbers_of_ranges, examples, without_numpy)
OF_MISUSE += (arrays_of_numpy, covering_of_routes, cells_of_asns, columns_of_pandas)
