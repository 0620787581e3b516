"""The calls of a loaded C library, with the types of what each takes and returns, and whether this
package can use that library."""

from __future__ import annotations

import contextlib
import ctypes
from array import array
from collections.abc import Callable, Iterator
from typing import Any

from ..errors import NoProgram
from ..text.lexical import display
from .base import Ranked
from .versions import ABI, fits, other_version

# The commands that calls of the library carry out, each with how many numbers follow its word.
# A solve has a call of its own.
COMMANDS = {"cap": 2, "add": 3, "close": 1, "shut": 1, "undo": 1, "redo": 1}
POINTER, WORD, LONG, SIZE = ctypes.c_void_p, ctypes.c_uint32, ctypes.c_uint64, ctypes.c_size_t


class LibraryCalls:
    """The calls of a loaded library."""

    def __init__(self, path: str, loaded: ctypes.CDLL) -> None:
        """Raise an AttributeError if the library lacks a call."""
        self.path = path
        self._loaded = loaded
        ends = [WORD, WORD, WORD, *[POINTER, SIZE] * 3, WORD, POINTER, POINTER]
        self.new = self._call("dmf_session_new", ends)
        self.read = self._call("dmf_session_read", [POINTER, SIZE, WORD, POINTER, POINTER, POINTER])
        self.copy = self._call("dmf_session_copy", [POINTER, POINTER])
        self.free = self._call("dmf_session_free", [POINTER], None)
        self.commands = {
            word: self._call(f"dmf_session_{word}", [POINTER, *[LONG] * many])
            for word, many in COMMANDS.items()
        }
        self.run = self._call("dmf_session_run", [POINTER, *[POINTER, SIZE] * 5, POINTER])
        self.solve_until = self._call("dmf_session_solve_until", [POINTER, POINTER])
        self.stop_new = self._call("dmf_stop_new", [POINTER])
        self.stop_share = self._call("dmf_stop_share", [POINTER, POINTER])
        self.stop_raise, self.stop_clear, self.stop_free = (
            self._call(f"dmf_stop_{word}", [POINTER], None) for word in ("raise", "clear", "free")
        )
        self.value = self._call("dmf_session_value", [POINTER], LONG)
        self.nodes = self._call("dmf_session_nodes", [POINTER])
        self.arcs = self._call("dmf_session_arcs", [POINTER], SIZE)
        self.flows = self._call("dmf_session_flows", [POINTER, POINTER, SIZE])
        self.side = self._call("dmf_session_side", [POINTER, POINTER, SIZE])
        found = [POINTER, POINTER, *[POINTER, SIZE] * 2]
        self.maximum_flow = self._call("dmf_session_maximum_flow", found)
        self.losses = {
            ranked: self._call(
                f"dmf_session_{ranked.one}_losses_until",
                [POINTER, *[POINTER, SIZE] * (ranked.column_count + 1), POINTER],
            )
            for ranked in Ranked
        }
        self.worst = {
            ranked: self._call(
                f"dmf_session_worst_{ranked.value}_until",
                [POINTER, *[POINTER, SIZE] * _array_count(ranked), POINTER, POINTER],
            )
            for ranked in Ranked
        }
        self.new_arc_gains = self._call(
            "dmf_session_new_arc_gains_until", [POINTER, *[POINTER, SIZE] * 4, POINTER]
        )
        self.problem = self._call("dmf_session_problem", [POINTER, POINTER, SIZE, POINTER])

    def _call(self, name: str, arguments: list[Any], result: Any = WORD) -> Callable[..., int]:
        call: Any = getattr(self._loaded, name)
        call.argtypes, call.restype = arguments, result
        return call  # type: ignore[no-any-return]


def _array_count(ranked: Ranked) -> int:
    """Return how many arrays the call that ranks these takes: numbers, losses and, for arcs, the
    marks of those that are chosen."""
    return ranked.column_count + (1 if ranked is Ranked.NODES else 2)


def place_of(column: array[int]) -> int:
    """Return the address of an array's items."""
    return column.buffer_info()[0]


def open_library(path: str) -> ctypes.CDLL:
    """Open the library at this path. Raises `NoProgram` if it cannot be loaded, or has a version
    that this package does not work with."""
    with loading(path):
        loaded = ctypes.CDLL(path)
        version = loaded.dmf_version()
    _refuse_other(path, version)
    with loading(path):
        interface = loaded.dmf_abi()
    _refuse_interface(path, interface)
    return loaded


@contextlib.contextmanager
def loading(path: str) -> Iterator[None]:
    """Raise `NoProgram` if a library cannot be loaded, or lacks a call."""
    try:
        yield
    except (OSError, AttributeError) as error:
        raise NoProgram(f"{display(path)} cannot be loaded: {display(str(error))}") from error


def _refuse_other(path: str, number: int) -> None:
    """Raise `NoProgram` for a library of a version that this package does not work with. The
    library gives its version as a number."""
    major, rest = divmod(number, 10_000)
    version = f"{major}.{rest // 100}.{rest % 100}"
    if not fits(version):
        raise other_version(display(path), version)


def _refuse_interface(path: str, number: int) -> None:
    """Raise `NoProgram` for a library whose calls have another form than this package uses."""
    if number != ABI:
        raise NoProgram(f"{display(path)} has the interface {number}, and this package needs {ABI}")
