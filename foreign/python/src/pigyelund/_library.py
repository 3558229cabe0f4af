"""Finds and loads the shared library. Its calls have the prototypes of `_bindings`."""

import ctypes
import os
from collections.abc import Callable
from pathlib import Path
from threading import RLock
from typing import Any, TypeVar

from . import _bindings
from ._bindings import Status

NAME = "libpigyelund.so"
SONAME = "libpigyelund.so.1"  # the name of the ABI that the calls have; it is there without NAME too
BESIDE = Path(__file__).parent / NAME
HOW_TO_GET = (
    "to get the library, install the Debian package libpigyelund1, or a wheel that has the library; or build it by "
    "'rt lib' in crates/pigyelund_c, install it by 'make -C foreign/c install PREFIX=.. KIT=..' (docs/C.md), and set "
    "PIGYELUND_LIB to PREFIX/lib"
)

_lock = RLock()  # the handler of a signal may make a call while its thread loads the library
_loaded: Any = None


def find_library() -> str:
    """Returns the file of the shared library, by the cases of `load`. In the last case it is the name alone."""
    folder = os.environ.get("PIGYELUND_LIB")
    if folder:
        files = [os.path.join(os.path.abspath(folder), name) for name in (NAME, SONAME)]
        return files[0] if os.path.exists(files[0]) or not os.path.exists(files[1]) else files[1]
    return str(BESIDE) if BESIDE.exists() else NAME


def searched_folders() -> str:
    """Returns a text that names PIGYELUND_LIB and the folders in which `find_library` searches."""
    folder = os.environ.get("PIGYELUND_LIB")
    if folder:
        return f"PIGYELUND_LIB names the only folder that was searched, {os.path.abspath(folder)}"
    unset = "PIGYELUND_LIB is not set" if folder is None else "PIGYELUND_LIB is empty"
    if BESIDE.exists():
        return f"{unset}, and the library was found in the folder of the package, {BESIDE.parent}"
    listed = os.environ.get("LD_LIBRARY_PATH")
    of_loader = f"LD_LIBRARY_PATH ({listed})" if listed else "LD_LIBRARY_PATH (not set)"
    loader = f"{of_loader}, /etc/ld.so.cache, and its default folders such as /lib and /usr/lib"
    return f"{unset}; searched: the folder of the package, {BESIDE.parent}, and then by the system's loader: {loader}"


def open_library(file: str) -> ctypes.CDLL:
    """Opens a shared library. If `file` is `NAME`, the loader searches for `SONAME` first: `NAME` may have another ABI.

    Raises:
        OSError: The loader does not open the file. If `file` is `NAME`, the text is that for `SONAME` if the loader
            finds this file, and else that for `NAME`.
    """
    if file != NAME:
        return ctypes.CDLL(file)
    try:
        return ctypes.CDLL(SONAME)
    except OSError as fault:
        if not str(fault).startswith(f"{SONAME}: cannot open shared object file: No such file"):
            raise
    return ctypes.CDLL(NAME)


def import_error(file: str, searched: str, why: str) -> ImportError:
    """Returns the error of a library that cannot be used. Its text names the file, and says how to get the library.

    Args:
        file: The path of the library, or its name alone.
        searched: The text that says where the file was searched. It is empty if a caller named the file.
        why: What is wrong with the file.
    """
    texts = [f"{file}: {why}", searched, HOW_TO_GET]
    return ImportError("; ".join(filter(None, texts)), name="pigyelund", path=file)


def version_text(number: int) -> str:
    """Returns the text of a version number: `1.2.3` for 1002003."""
    return f"{number // 1000000}.{number // 1000 % 1000}.{number % 1000}"


def open_calls(file: str, searched: str) -> ctypes.CDLL:
    """Opens a shared library, and gives each call its prototype.

    Raises:
        ImportError: The file is missing, is not the library, is older than the header of this package, or lacks a call.
    """
    try:
        library = open_library(file)
        library.pigy_version.restype, library.pigy_version.argtypes = _bindings.CALLS["pigy_version"]
        version = library.pigy_version()
    except OSError as fault:
        raise import_error(file, searched, str(fault).removeprefix(f"{file}: ")) from None
    except AttributeError:
        raise import_error(file, searched, "the library has no call pigy_version") from None
    if version < _bindings.VERSION_NUMBER:
        needed = version_text(_bindings.VERSION_NUMBER)
        why = f"the library has version {version_text(version)}, and this package needs version {needed}"
        raise import_error(file, searched, why)
    for name, (result, parameters) in _bindings.CALLS.items():
        try:
            call = getattr(library, name)
        except AttributeError:
            raise import_error(file, searched, f"the library has no call {name}") from None
        call.restype, call.argtypes = result, parameters
    return library


def load(path: str | os.PathLike[str] | None = None) -> None:
    """Loads the shared library, and does nothing if it is loaded. The first call of the package loads it too.

    Without a path, the first case that applies says which library is loaded:

    1. The variable PIGYELUND_LIB is set and not empty: `libpigyelund.so` in the folder that it names, or else
       `libpigyelund.so.1` there.
    2. The folder of the package has `libpigyelund.so`: that file.
    3. Otherwise: `libpigyelund.so.1` where the system's loader searches, or else `libpigyelund.so`.

    Args:
        path: The file of the shared library. A relative path begins at the current folder. None means the library that
            the list above names.

    Raises:
        ImportError: The file is missing, is not the library, is older than the package, or lacks calls. The text names
            the file and PIGYELUND_LIB, and says how to get the library. Without a path it also names the folders that
            were searched. No other file is tried.
        RuntimeError: You pass a path, and the library was loaded under another path or name, also if the file is the
            same.
    """
    global _loaded
    file = None if path is None else os.path.abspath(path)  # the loader searches for a name without a folder
    with _lock:
        if _loaded is None:
            _loaded = open_calls(file or find_library(), "" if file else searched_folders())
        elif file and file != _loaded._name:
            raise RuntimeError(f"{file}: another library is loaded, {_loaded._name}")


def library() -> Any:
    """Returns the shared library, whose attributes are its calls. The first call loads it.

    Raises:
        ImportError: As `load` raises it.
    """
    if _loaded is None:
        load()
    return _loaded


def library_version() -> str:
    """Returns the version of the loaded library, for example `0.2.0`."""
    return version_text(library().pigy_version())


class Handle:
    """Owns a handle of the library, which is freed when the last reference to its owner is dropped.

    Make the owner first, and have the call store the handle in it. An exception of a signal handler, which may come as
    soon as the call has returned, then loses no handle.

    Attributes:
        stored: Where a call of the library stores the handle. It is null until then.
    """

    __slots__ = ("stored", "_free")

    def __init__(self, free: str) -> None:
        self.stored = ctypes.c_void_p()
        self._free = getattr(library(), free)

    def __del__(self) -> None:
        if self.stored:
            self._free(self.stored)


Item = TypeVar("Item", bound=ctypes.Structure)
Items = Callable[["ctypes.Array[Any]", int, Any], int]


def listed(kind: type[Item], call: Items, capacity: int = 64) -> tuple[int, bytes]:
    """Makes a call that lists structs, and again with a larger array if the first one is too small.

    Args:
        kind: The type of the structs.
        call: The call. It takes the array, its capacity, and a reference for the number of structs.
        capacity: The capacity of the first array.

    Returns:
        The status, and the octets of the structs.
    """
    length = ctypes.c_size_t()
    array = (kind * capacity)()
    status = call(array, capacity, ctypes.byref(length))
    if status == Status.TOO_SMALL:
        array = (kind * length.value)()
        status = call(array, length.value, ctypes.byref(length))
    return status, ctypes.string_at(array, length.value * ctypes.sizeof(kind)) if status == Status.OK else b""


def texted(call: Callable[["ctypes.Array[ctypes.c_char]", int, Any], int], capacity: int = 256) -> tuple[int, str]:
    """Makes a call that writes a text, and again with a larger buffer if the first one is too small.

    Args:
        call: The call. It takes the buffer, its capacity, and a reference for the length.
        capacity: The capacity of the first buffer.

    Returns:
        The status, and the text.
    """
    length = ctypes.c_size_t()
    buffer = ctypes.create_string_buffer(capacity)
    status = call(buffer, capacity, ctypes.byref(length))
    if status == Status.TOO_SMALL:
        buffer = ctypes.create_string_buffer(length.value)
        status = call(buffer, length.value, ctypes.byref(length))
    return status, buffer.raw[: length.value].decode("utf-8") if status == Status.OK else ""


def status_text(status: int) -> str:
    """Returns the English text of a status. The library has the texts.

    Args:
        status: A status of a call. The text of any other number is `unknown status`.
    """
    text: bytes = library().pigy_status_text(status & 0xFFFFFFFF)
    return text.decode("ascii")
