"""Tests of handles that need no golden test. `test.py` runs them, and each yields a text for each fault.

They test that a table cannot be copied. They test that each table and each set is freed once, and not while a thread
uses it. They also test how the library is loaded, the message that appears without a library, and the example with
several processes.
"""

import copy
import gc
import os
import pickle
import subprocess
import sys
import tempfile
import threading
from collections.abc import Callable, Iterator
from ipaddress import IPv4Network
from pathlib import Path
from typing import Any

from pigyelund import (
    Certificate,
    ChangeError,
    Changes,
    Extensions,
    OriginError,
    OverclaimedError,
    Resources,
    Route,
    Table,
    Validity,
    Vrp,
    _bindings,
    _library,
    library_version,
)
from spies import Counted, spied

TEN = IPv4Network("10.0.0.0/8")
NO_COPY = "a Table can't be copied or pickled; table.with_changes() makes another one of the same VRPs"


def drop_by_name(table: Table, _: Counted) -> None:
    """Drops a table without closing it."""
    del table


def drop_in_a_cycle(table: Table, _: Counted) -> None:
    """Drops a table that refers to itself."""
    table.itself = table  # type: ignore[attr-defined]


def drop_after_a_refusal(table: Table, counted: Counted) -> None:
    """Closes a table while an exception of its call is kept."""
    try:
        table.with_changes(announced=[Vrp(TEN, 1)])
    except ChangeError as reason:
        kept = reason
    table.close()
    if not (isinstance(kept, ChangeError) and counted.held == []):
        counted.faults.append("an error keeps a table")


def drop_after_an_error(table: Table, counted: Counted) -> None:
    """Closes a table while an exception from inside its call is kept."""
    try:
        table._with_handle(lambda _: 1 / 0)
    except ZeroDivisionError as reason:
        kept = reason
    table.close()
    if not (isinstance(kept, ZeroDivisionError) and counted.held == []):
        counted.faults.append("an error within a call keeps a table")


def drop_a_following(table: Table, counted: Counted) -> None:
    """Closes a table and the next table that was made from it."""
    with table, table.with_changes(announced=[Vrp(TEN, 2)]) as following:
        if len(counted.held) != 2 or len(following) != 2:
            counted.faults.append(f"{counted.held} of two tables")


def drop_by_another_start(table: Table, _: Counted) -> None:
    """Calls `__init__` of a table again."""
    table.__init__([])  # type: ignore[misc]


def drop_closed(table: Table, _: Counted) -> None:
    """Closes a table."""
    table.close()


DROPS = (drop_closed, drop_by_name, drop_in_a_cycle, drop_after_a_refusal, drop_after_an_error)
DROPS += (drop_a_following, drop_by_another_start)


def frees(_: Path) -> Iterator[str]:
    """Each table is freed once, in each way of dropping it, and its memory is used again."""
    counted = Counted()
    with spied(counted.around):
        for drop in DROPS:
            for _each in range(20):
                drop(Table([Vrp(TEN, 1)]), counted)
            gc.collect()  # a caller may hold the argument until the call returns
            if counted.held or counted.faults:
                yield f"{drop.__name__}: {len(counted.held)} tables left, {counted.faults[:3]}"
                counted.held.clear()
                counted.faults.clear()
        try:
            yield f"a bad VRP answers {Table(bytes(24))}"
        except OriginError:
            pass
    if counted.held or counted.faults:
        yield "a table that is refused is kept"
    many = b"".join(bytes(Vrp(IPv4Network((at << 12, 20)), 1)) for at in range(20000))
    before = 0
    for at in range(200):
        if at == 20:
            before = resident()
        Table(many)
    # A table takes 24 octets for each VRP, or more.
    if resident() - before > 180 * len(many) // 4:
        yield f"{resident() - before} octets more after 180 tables of {len(many)} octets"


def frees_sets(_: Path) -> Iterator[str]:
    """Each set is freed once, also that of overclaimed resources, and those that a call makes on its way."""
    counted = Counted()
    with spied(counted.around):
        for _each in range(20):
            one, two = Resources([TEN]), Resources.from_text(asn="1-9", v4="10.0.0.0/7, 12.0.0.0/8", v6="::/0")
            for made in (one | two, one & two, two - one, one ^ two, copy.copy(one), pickle.loads(pickle.dumps(two))):
                made |= one
            two.verify(one.der())
            two.verify_path([Certificate(one.der())] * 3)
            for refused in (
                lambda: one.verify(two.der()),  # noqa: F821
                lambda: one.verify_path([Certificate(two.der())]),  # noqa: F821
            ):
                try:
                    yield f"an excess answers {refused()}"
                except OverclaimedError as reason:
                    kept = reason
            if kept.excess.as_ranges() == []:
                yield "the excess is lost"
            try:
                yield f"{Resources.read(Extensions(ip=b'0'))} of invalid DER"
            except ValueError:
                pass
            except Exception as reason:  # noqa: BLE001
                if type(reason).__name__ != "DerError":
                    raise
            bool(one), [*one.ranges()], hash(one), str(two), one in two, one < two
            itself: list[Any] = [one]
            itself.append(itself)
        del one, two, made, kept, itself
        gc.collect()
        left = len(counted.held) - (Resources._none is not None)
        if left > 0 or counted.faults:
            yield f"{left} sets left, {counted.faults[:3]}"


def resident() -> int:
    """Returns how many octets of memory the process has."""
    return int(Path("/proc/self/statm").read_text().split()[1]) * 4096


def no_copies(_: Path) -> Iterator[str]:
    """A table cannot be copied or pickled."""
    with Table([Vrp(TEN, 1)]) as table:
        calls: list[Callable[[Any], object]] = [copy.copy, copy.deepcopy, lambda it: it.__reduce__()]
        calls += [lambda it, by=by: pickle.dumps(it, by) for by in range(6)]
        calls += [lambda it: copy.copy([it])[0].__copy__(), lambda it: copy.deepcopy([it])]
        for at, call in enumerate(calls):
            try:
                yield f"copy {at} of a table is {call(table)}"
            except TypeError as reason:
                if str(reason) != NO_COPY:
                    yield f"copy {at} of a table: {reason}"
        if len(table) != 1:
            yield "a table after copies"


class Paused(Counted):
    """Counts handles. Each call on a table waits inside until `goes_on` is set."""

    def __init__(self) -> None:
        super().__init__()
        self.entered, self.goes_on = threading.Event(), threading.Event()

    def around(self, name: str, call: Callable[..., Any], words: tuple[Any, ...]) -> Any:
        if name.startswith("pigy_table_") and name not in ("pigy_table_new", "pigy_table_free"):
            self.entered.set()
            if not self.goes_on.wait(20):
                self.faults.append(f"{name} waits for ever")
        return super().around(name, call, words)


ROUTE = Route(TEN, 1)
ON_TABLES: list[Callable[[Table], object]] = [
    lambda table: table.validate_routes([ROUTE]) == [Validity.VALID],
    lambda table: table.validate_routes([ROUTE], reasons=True) == ([Validity.VALID], [None]),
    lambda table: table.validate(ROUTE) == Validity.VALID,
    lambda table: len(table.covering(ROUTE)) == 1,
    lambda table: table.revalidate(table, [ROUTE]) == [],
    lambda table: table.changes(table) == Changes([], []),
    lambda table: len(table) == 1,
    lambda table: table.octets() == bytes(Vrp(TEN, 1)),
    lambda table: table.with_changes().close() is None,
]


def closed_while_asked(_: Path) -> Iterator[str]:
    """A table that is closed during a call of another thread is freed when the call has returned, and not before."""
    for at, ask in enumerate(ON_TABLES):
        paused = Paused()
        with spied(paused.around):
            table, found = Table([Vrp(TEN, 1)]), list[object]()
            asking = threading.Thread(target=lambda: found.append(ask(table)))
            asking.start()
            if not paused.entered.wait(20):
                yield f"call {at} never begins"
            table.close()
            if len(paused.held) != 1:
                yield f"call {at}: the table is freed while it is asked"
            try:
                yield f"call {at}: a table that is closed answers {table.validate_routes([])}"
            except ValueError:
                pass
            paused.goes_on.set()
            asking.join(20)
        if found != [True] or paused.held or paused.faults:
            yield f"call {at}: {found}, {len(paused.held)} tables left, {paused.faults}"


def closed_at_any_time(_: Path) -> Iterator[str]:
    """Threads use a table until it is closed. Each result is right."""
    vrps = [Vrp(TEN, asn) for asn in range(1, 200)]
    routes, wrong = [ROUTE] * 50, list[object]()

    def ask(table: Table, begun: threading.Barrier) -> None:
        begun.wait(20)
        try:
            while True:
                if table.validate_routes(routes) != [Validity.VALID] * 50 or len(table.covering(ROUTE)) != 199:
                    wrong.append("another answer")
        except ValueError:
            pass

    for at in range(20):
        table, begun = Table(vrps), threading.Barrier(5)
        threads = [threading.Thread(target=ask, args=(table, begun)) for _ in range(4)]
        for one in threads:
            one.start()
        begun.wait(20)
        threading.Event().wait(at / 2000)
        table.close()
        for one in threads:
            one.join(20)
    if wrong:
        yield f"{len(wrong)} answers are wrong while a table is closed"


def shared_sets(_: Path) -> Iterator[str]:
    """Threads use one set at the same time. Each result is right."""
    one, two, wrong = Resources([TEN]), Resources.from_text(asn="1-9", v4="10.0.0.0/7"), list[object]()

    def ask() -> None:
        for _ in range(300):
            if not (one < two and TEN in two and two.verify(one.der()) == one and str(one & two) == "10.0.0.0/8"):
                wrong.append("another answer")

    threads = [threading.Thread(target=ask) for _ in range(4)]
    for thread in threads:
        thread.start()
    for thread in threads:
        thread.join(60)
    if wrong:
        yield f"{len(wrong)} answers are wrong while threads share sets"


def loaded_once(_: Path) -> Iterator[str]:
    """Threads that make the first call load the library once."""
    library, opened, begun = _library._loaded, list[str](), threading.Barrier(8)

    def open_slowly(file: str, searched: str) -> Any:
        opened.append(file)
        threading.Event().wait(0.05)
        return library

    def ask() -> None:
        begun.wait(20)
        library_version()

    kept = _library.open_calls
    _library._loaded, _library.open_calls = None, open_slowly
    try:
        threads = [threading.Thread(target=ask) for _ in range(8)]
        for one in threads:
            one.start()
        for one in threads:
            one.join(20)
    finally:
        _library._loaded, _library.open_calls = library, kept
    if len(opened) != 1:
        yield f"the library is loaded {len(opened)} times"


def no_library(folder: Path) -> Iterator[str]:
    """Without a library, or with an older one, an `ImportError` names the file and how to get it, in one line."""
    needed = _bindings.VERSION_NUMBER
    name = _library._loaded._name
    asked: list[tuple[Path | str, int, str]] = [
        (folder / "no folder" / _library.NAME, needed, "cannot open shared object file: No such file or directory"),
        (folder / "texts.txt", needed, "invalid ELF header"),
        ("libm.so.6", needed, "the library has no call pigy_version"),
        (name, 1002003, f"the library has version {library_version()}, and this package needs version 1.2.3"),
    ]
    try:
        for path, version, why in asked:
            _bindings.VERSION_NUMBER = version
            try:
                yield f"{_library.open_calls(str(path), '')} of {path}"
            except ImportError as reason:
                if str(reason) != f"{path}: {why}; {_library.HOW_TO_GET}" or reason.path != str(path):
                    yield f"{reason!r} of {path}"
    finally:
        _bindings.VERSION_NUMBER = needed
    said = _library.HOW_TO_GET
    if "\n" in said or not all(it in said for it in ("PIGYELUND_LIB", "rt lib", "KIT=", "a wheel")):
        yield f"how to get the library: {said}"


def searched(folder: Path) -> Iterator[str]:
    """Without a path, an `ImportError` says what PIGYELUND_LIB is, and which folders were searched, in one line."""
    own, none = Path(_library.__file__).parent, (folder / "no folder").absolute()
    loader = "/etc/ld.so.cache, and its default folders such as /lib and /usr/lib; "
    package = f"searched: the folder of the package, {own}, and then by the system's loader: LD_LIBRARY_PATH "
    named = f"{none}/{_library.NAME}: cannot open shared object file: No such file or directory; "
    asked: list[tuple[dict[str, str], str]] = [
        ({"PIGYELUND_LIB": str(none)}, f"{named}PIGYELUND_LIB names the only folder that was searched, {none}; "),
        ({"LD_LIBRARY_PATH": str(none)}, f"PIGYELUND_LIB is not set; {package}({none}), {loader}"),
        ({"PIGYELUND_LIB": ""}, f"PIGYELUND_LIB is empty; {package}(not set), {loader}"),
    ]
    for call in ("load()", "Table()", "Resources()", "Asn('AS1')", "status_text(1)"):
        for variables, wanted in asked:
            kept = {name: os.environ[name] for name in ("PATH",) if name in os.environ}
            words = [sys.executable, "-c", f"import pigyelund; pigyelund.{call}"]
            environment = kept | {"PYTHONPATH": str(own.parent), "LC_ALL": "C"} | variables
            run = subprocess.run(words, env=environment, capture_output=True, text=True, check=False)
            line = run.stderr.splitlines()[-1] if run.stderr else ""
            if run.returncode == 0 and not (variables.get("PIGYELUND_LIB") or _library.BESIDE.exists()):
                continue  # the system's loader has the library
            if not (line.startswith("ImportError: ") and wanted in line and line.endswith(_library.HOW_TO_GET)):
                yield f"{call}, {variables}: {line!r} does not have {wanted!r}"
            if "Exception ignored" in run.stderr:
                yield f"{call}, {variables}: {run.stderr}"


def processes(_: Path) -> Iterator[str]:
    """The example processes.py makes a table in each process, and prints the counts in the order of the files."""
    top = Path(__file__).resolve().parents[1]
    paths = {"PYTHONPATH": str(top / "src"), "PIGYELUND_LIB": os.path.dirname(_library._loaded._name)}
    words = [sys.executable, top / "examples" / "processes.py", "vrps", "one", "two", "none"]
    with tempfile.TemporaryDirectory() as folder:
        Path(folder, "vrps").write_text("AS64496,10.0.0.0/8,16\n")
        Path(folder, "one").write_text("10.0.0.0/16 AS64496\n10.0.0.0/24 AS64496\n12.0.0.0/8 AS64496\n" * 2)
        Path(folder, "two").write_text("10.0.0.0/16 AS64497\n")
        Path(folder, "none").write_text("")
        run = subprocess.run(words, cwd=folder, env=os.environ | paths, capture_output=True, text=True, check=False)
    counts = "one 2 valid, 2 not-found, 2 invalid", "two 0 valid, 0 not-found, 1 invalid"
    if run.stdout.splitlines() != [*counts, "none 0 valid, 0 not-found, 0 invalid"]:
        yield f"processes.py: {run.stdout}{run.stderr}"


OF_TABLES = (frees, frees_sets, no_copies, closed_while_asked, closed_at_any_time, shared_sets, loaded_once, no_library)
OF_TABLES += (searched, processes)
