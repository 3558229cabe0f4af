"""Puts a spy between the package and the library."""

from collections.abc import Callable, Iterator
from contextlib import contextmanager
from typing import Any

from pigyelund import _library

Around = Callable[[str, Callable[..., Any], tuple[Any, ...]], Any]


class Spy:
    """The library, with a function around each call."""

    def __init__(self, library: Any, around: Around) -> None:
        self._library, self._around = library, around

    def __getattr__(self, name: str) -> Callable[..., Any]:
        call = getattr(self._library, name)
        return lambda *words: self._around(name, call, words)


@contextmanager
def spied(around: Around) -> Iterator[None]:
    """Has a function make each call of the library: it gets the name, the call and the arguments."""
    library = _library._loaded
    _library._loaded = Spy(library, around)
    try:
        yield
    finally:
        _library._loaded = library


class Counted:
    """Counts the handles of the library that are made and freed.

    Attributes:
        held: The handles that are not freed yet.
        faults: The handles that are freed more than once.
    """

    def __init__(self) -> None:
        self.held: list[int] = []
        self.faults: list[str] = []

    def around(self, name: str, call: Callable[..., Any], words: tuple[Any, ...]) -> Any:
        """Makes a call, and counts its handles."""
        if name.endswith("_free"):
            handle = words[0].value
            if handle not in self.held:
                self.faults.append(f"{handle} is freed, of {self.held}")
                return None
            self.held.remove(handle)
        found = call(*words)
        stored = [getattr(word, "_obj", None) for word in words]  # byref(handle) has the handle
        self.held += [it.value for it in stored if type(it).__name__ == "c_void_p" and it.value]
        return found
