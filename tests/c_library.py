"""The C library of prebuilt/, and its calls by ctypes."""

from __future__ import annotations

import ctypes
import functools
import re
import subprocess
from collections.abc import Iterable, Sequence
from ctypes import byref, c_size_t, c_uint8, c_uint32, c_uint64, c_void_p
from pathlib import Path
from random import Random
from typing import Any

from c_arrays import ODD, ODD_NUMBER, array_of, odd_array

ROOT = Path(__file__).resolve().parent.parent
HEADER = ROOT / "include/dmf.h"
STRICT = ["-Wall", "-Wextra", "-Wpedantic", "-Werror", "-O1", "-g", f"-I{HEADER.parent}"]


@functools.cache
def library_folder() -> Path:
    """The folder of libdmf.so.0, which is of the present sources; ./prove compares it with what
    they make."""
    taken = subprocess.run([ROOT / "tools/prebuilt", "library"], capture_output=True, text=True)
    assert taken.returncode == 0, taken.stdout
    return Path(taken.stdout.rstrip("\n")).parent


def library_file() -> str:
    """The library itself."""
    return str(library_folder() / "libdmf.so.0")


def header_calls() -> list[str]:
    """Return the calls of the library that dmf.h declares, without its inline functions."""
    return re.findall(r"^(?:enum )?\w+ (dmf_\w+)\(", HEADER.read_text(), re.MULTILINE)


def compiled(compiler: list[str], source: Path, folder: Path, scratch: Path) -> Path:
    """A program in C or C++ that is linked with the library of this folder. It has no warning."""
    program = scratch / "caller"
    linked = [str(folder / "libdmf.so.0"), f"-Wl,-rpath,{folder}"]
    subprocess.run([*compiler, *STRICT, str(source), "-o", str(program), *linked], check=True)
    return program


class Refused(Exception):
    """A call answered this number, and not 0."""

    def __init__(self, status: int, place: int = 0) -> None:
        super().__init__(status, place)
        self.status = status
        self.place = place


def want(status: int, place: int = 0) -> None:
    if status != 0:
        raise Refused(status, place)


# Numbers of `enum dmf_status`.
NO_MEMORY, NO_SUCH_NODE, NO_SUCH_ARC, TOO_MANY_ARCS, SUM_TOO_LARGE = 1, 2, 3, 5, 6
NOT_GREATEST, BAD_LENGTH, BAD_TEXT = 9, 10, 12


# Numbers of `enum dmf_command`.
COMMANDS = {"cap": 1, "add": 2, "close": 3, "shut": 4, "solve": 5, "undo": 6, "redo": 7}


class Library:
    """The loaded library. Before each call odd numbers stand where the call may write; those stay
    where the header says so."""

    def __init__(self, folder: Path) -> None:
        self.calls = ctypes.CDLL(str(folder / "libdmf.so.0"))
        self.calls.dmf_session_value.restype = c_uint64
        self.calls.dmf_session_arcs.restype = c_size_t
        for name in ("past", "future", "nodes", "source", "sink"):
            getattr(self.calls, f"dmf_session_{name}").restype = c_uint32

    def open(
        self,
        nodes: int,
        ends: tuple[int, int],
        arcs: list[tuple[int, int, int]],
        past: int = 1_000_000,
    ) -> CSession:
        columns = ([arc[0] for arc in arcs], [arc[1] for arc in arcs], [arc[2] for arc in arcs])
        return self.open_arrays(nodes, ends, columns, past)

    def open_arrays(
        self,
        nodes: int,
        ends: tuple[int, int],
        columns: tuple[list[int], list[int], list[int]],
        past: int,
    ) -> CSession:
        """Opens a session on tails, heads and capacities, whose lengths may differ."""
        tails, heads, capacities = columns
        session, bad_arc = c_void_p(ODD_NUMBER), c_size_t(ODD_NUMBER)
        status = self.calls.dmf_session_new(
            c_uint32(nodes),
            c_uint32(ends[0]),
            c_uint32(ends[1]),
            array_of(c_uint32, tails),
            c_size_t(len(tails)),
            array_of(c_uint32, heads),
            c_size_t(len(heads)),
            array_of(c_uint64, capacities),
            c_size_t(len(capacities)),
            c_uint32(past),
            byref(session),
            byref(bad_arc),
        )
        if status == 0:
            assert bad_arc.value == ODD_NUMBER and session.value != ODD_NUMBER
            return CSession(self.calls, session)
        assert session.value == ODD_NUMBER
        raise Refused(
            status, bad_arc.value if status in (NO_SUCH_NODE, TOO_MANY_ARCS, SUM_TOO_LARGE) else 0
        )

    def read(self, text: bytes, past: int = 1_000_000) -> CSession:
        session, line, fault = c_void_p(ODD_NUMBER), c_uint64(ODD_NUMBER), c_uint32(ODD_NUMBER)
        status = self.calls.dmf_session_read(
            text, c_size_t(len(text)), c_uint32(past), byref(session), byref(line), byref(fault)
        )
        assert (status == BAD_TEXT) == (line.value != 0) == (fault.value != 0)
        assert (status == 0) == (session.value != ODD_NUMBER)
        if status != 0:
            raise Refused(status, 1_000 * line.value + fault.value)
        return CSession(self.calls, session)

    def example(self) -> CSession:
        """Return a session of the small example of the documents."""
        return self.read((ROOT / "examples" / "a.max").read_bytes())


class CSession:
    """A session of the library."""

    def __init__(self, calls: ctypes.CDLL, session: c_void_p) -> None:
        self.calls = calls
        self.session = session

    def __enter__(self) -> CSession:
        return self

    def __exit__(self, *_: object) -> None:
        self.calls.dmf_session_free(self.session)

    def copy(self) -> CSession:
        """Return another session with the same states."""
        copy = c_void_p(ODD_NUMBER)
        status = self.calls.dmf_session_copy(self.session, byref(copy))
        assert (status == 0) == (copy.value != ODD_NUMBER)
        want(status)
        return CSession(self.calls, copy)

    def number(self, name: str) -> int:
        return int(getattr(self.calls, f"dmf_session_{name}")(self.session))

    def step(self, word: str, *numbers: int) -> None:
        want(getattr(self.calls, f"dmf_session_{word}")(self.session, *map(c_uint64, numbers)))

    def run(
        self, commands: Sequence[Sequence[int]], random: Random, lengths: Sequence[int] = ()
    ) -> tuple[int, list[int]]:
        """Carry out commands, each a kind and its numbers, in arrays of these lengths. Random
        numbers stand where a command has none. Return the answer and the values. The places past
        these stay."""
        rows = [
            [*row, *(random.randrange(2**64) for _ in range(4 - len(row)))] for row in commands
        ]
        *given, places = lengths or [len(rows)] * 5
        columns = [[row[part] for row in rows] for part in range(4)]
        arguments = [
            part
            for kind, column, length in zip((c_uint32, *(c_uint64,) * 3), columns, given)
            for part in (array_of(kind, (column * 2)[:length]), c_size_t(length))
        ]
        values, done = odd_array(c_uint64, places), c_size_t(ODD_NUMBER)
        before = bytes(values)
        status = self.calls.dmf_session_run(
            self.session, *arguments, values if places else None, c_size_t(places), byref(done)
        )
        if status == BAD_LENGTH:
            assert bytes(values) == before and done.value == ODD_NUMBER
            raise Refused(status)
        assert bytes(values)[8 * done.value :] == before[8 * done.value :]
        return int(status), list(map(int, values))[: done.value]

    def filled(
        self, name: str, kind: type[ctypes._SimpleCData[int]], count: int
    ) -> tuple[int, ...]:
        """What the call puts into an array with so many places. The place after the last stays, and
        a refused call puts nothing."""
        places = odd_array(kind, count)
        before = bytes(places)
        status = getattr(self.calls, f"dmf_session_{name}")(self.session, places, c_size_t(count))
        assert bytes(places)[count * ctypes.sizeof(kind) :] == before[count * ctypes.sizeof(kind) :]
        assert status == 0 or bytes(places) == before
        want(status)
        return tuple(int(number) for number in list(places)[:count])

    def arc_range(self, first: int, count: int, lengths: Sequence[int]) -> list[tuple[int, ...]]:
        """Return what the call puts into arrays of these lengths: tails, heads, capacities, flows
        and marks. An array of length 0 is NULL. The place after the last of each array stays, and a
        refused call puts nothing."""
        kinds = (c_uint32, c_uint32, c_uint64, c_uint64, c_uint8)
        places = [odd_array(kind, length) for kind, length in zip(kinds, lengths)]
        before = list(map(bytes, places))
        columns = [
            part
            for place, length in zip(places, lengths)
            for part in (place if length else None, c_size_t(length))
        ]
        status = self.calls.dmf_session_arc_range(
            self.session, c_uint64(first), c_size_t(count), *columns
        )
        for kind, place, odd in zip(kinds, places, before):
            size = ctypes.sizeof(kind)
            assert bytes(place)[-size:] == odd[-size:] and (status == 0 or bytes(place) == odd)
        want(status)
        return [tuple(map(int, place))[:-1] for place in places]

    def moved(self, lengths: Sequence[int]) -> tuple[int, list[tuple[int, ...]]]:
        """Return how many arcs the last step moved, and what the call puts into arrays of these
        lengths: numbers, flows before and flows now. An array of length 0 is NULL. What is past
        those that are put stays, and a refused call puts nothing."""
        kinds = (c_uint32, c_uint64, c_uint64)
        places = [odd_array(kind, length) for kind, length in zip(kinds, lengths)]
        before, found = list(map(bytes, places)), c_size_t(ODD_NUMBER)
        columns = [
            part
            for place, length in zip(places, lengths)
            for part in (place if length else None, c_size_t(length))
        ]
        status = self.calls.dmf_session_moved(self.session, *columns, byref(found))
        assert status == 0 or found.value == ODD_NUMBER
        count = found.value if status == 0 else 0
        for kind, place, length, odd in zip(kinds, places, lengths, before):
            size = ctypes.sizeof(kind) * min(count, length)
            assert bytes(place)[size:] == odd[size:]
        want(status)
        put = zip(places, lengths)
        return count, [tuple(map(int, list(place)[: min(count, length)])) for place, length in put]

    def maximum_flow(
        self, flow_count: int, side_count: int
    ) -> tuple[int, tuple[int, ...], tuple[int, ...]]:
        """Return the value that the call writes, and what it puts into arrays of these lengths. An
        array of length 0 is NULL. The place after the last of each array stays, and a refused call
        puts nothing."""
        value, kinds = c_uint64(ODD_NUMBER), (c_uint64, c_uint8)
        places = [odd_array(kind, count) for kind, count in zip(kinds, (flow_count, side_count))]
        before = list(map(bytes, places))
        columns = [
            part
            for place, count in zip(places, (flow_count, side_count))
            for part in (place if count else None, c_size_t(count))
        ]
        status = self.calls.dmf_session_maximum_flow(self.session, byref(value), *columns)
        for kind, place, odd in zip(kinds, places, before):
            size = ctypes.sizeof(kind)
            assert bytes(place)[-size:] == odd[-size:] and (status == 0 or bytes(place) == odd)
        assert status == 0 or value.value == ODD_NUMBER
        want(status)
        flows, side = (tuple(map(int, place))[:-1] for place in places)
        return value.value, flows, side

    def _question(self, name: str) -> Any:
        """Return the call that answers a question which may take long."""
        return getattr(self.calls, f"dmf_session_{name}")

    def losses(self, part: str, numbers: Sequence[int], count: int) -> tuple[int, ...]:
        """Return what dmf_session_PART_losses puts into an array of this length for the arcs or the
        nodes of these numbers. Arrays of length 0 are NULL. The place after the last stays, and a
        refused call puts nothing."""
        return self._told(f"{part}_losses", [(c_uint32, numbers)], count)

    def pair_losses(
        self, firsts: Sequence[int], seconds: Sequence[int], count: int
    ) -> tuple[int, ...]:
        """Return what the call puts into an array of this length, as losses does."""
        return self._told("pair_losses", [(c_uint32, firsts), (c_uint32, seconds)], count)

    def second_gains(self, arcs: Sequence[int], count: int) -> tuple[int, ...]:
        """Return what the call puts into an array of this length, as losses does."""
        return self._told("second_gains", [(c_uint32, arcs)], count)

    def new_arc_gains(
        self,
        tails: Sequence[int],
        heads: Sequence[int],
        capacities: Sequence[int],
        count: int,
    ) -> tuple[int, ...]:
        """Return what the call puts into an array of this length, as losses does."""
        columns = (c_uint32, tails), (c_uint32, heads), (c_uint64, capacities)
        return self._told("new_arc_gains", columns, count)

    def _told(
        self,
        name: str,
        columns: Iterable[tuple[type[ctypes._SimpleCData[int]], Sequence[int]]],
        count: int,
    ) -> tuple[int, ...]:
        places = odd_array(c_uint64, count)
        before = bytes(places)
        given = [
            part
            for kind, column in columns
            for part in (array_of(kind, column), c_size_t(len(column)))
        ]
        places_or_none = places if count else None
        status = self._question(name)(self.session, *given, places_or_none, c_size_t(count))
        assert bytes(places)[8 * count :] == before[8 * count :]
        assert status == 0 or bytes(places) == before
        want(status)
        return tuple(map(int, places))[:-1]

    def worst(
        self, parts: str, lengths: Sequence[int], among: Sequence[int] = ()
    ) -> list[tuple[int, ...]]:
        """Return what dmf_session_worst_PARTS puts into arrays of these lengths, the last one for
        losses: the numbers and the loss of each. Arrays of length 0 are NULL. What is past those
        that are found stays, and a refused call puts nothing. Nodes have no marks."""
        kinds = [*[c_uint32] * (len(lengths) - 1), c_uint64]
        places = [odd_array(kind, length) for kind, length in zip(kinds, lengths)]
        before, found = list(map(bytes, places)), c_size_t(ODD_NUMBER)
        columns = [
            part
            for place, length in zip(places, lengths)
            for part in (place if length else None, c_size_t(length))
        ]
        marks = [] if parts == "nodes" else [array_of(c_uint8, among), c_size_t(len(among))]
        status = self._question(f"worst_{parts}")(self.session, *marks, *columns, byref(found))
        assert status == 0 or found.value == ODD_NUMBER
        written = found.value if status == 0 else 0
        for kind, place, odd in zip(kinds, places, before):
            size = ctypes.sizeof(kind) * written
            assert bytes(place)[size:] == odd[size:]
        want(status)
        return [tuple(map(int, row)) for row in zip(*(list(place)[:written] for place in places))]

    def state(self) -> tuple[object, ...]:
        """Return all that a call that changes nothing must leave as it is."""
        numbers = tuple(self.number(name) for name in ("value", "past", "future", "arcs"))
        return numbers, self.array("flows"), self.array("capacities"), self.text("problem")

    def array(self, name: str) -> tuple[int, ...]:
        return self.filled(name, c_uint64, self.number("arcs"))

    def side(self) -> list[int]:
        """The nodes of the side, ascending."""
        marks = self.filled("side", c_uint8, self.number("nodes"))
        assert set(marks) <= {0, 1}
        return [v for v, mark in enumerate(marks, 1) if mark]

    def check(self, flows: tuple[int, ...]) -> None:
        place = c_uint64(ODD_NUMBER)
        given = array_of(c_uint64, flows)
        status = self.calls.dmf_session_check(
            self.session, given, c_size_t(len(flows)), byref(place)
        )
        assert tuple(given or ()) == flows
        want(status, place.value)
        assert place.value == 0

    def text(self, name: str) -> bytes:
        """Ask for the length, with too little room, and then for the text."""
        (length,) = {self._length(name, room) for room in (0, 1)}
        return self.text_into(name, length)

    def _length(self, name: str, room: int) -> int:
        try:
            self.text_into(name, room)
        except Refused as refused:
            assert refused.status == BAD_LENGTH
            return refused.place
        raise AssertionError("the text has no length")

    def text_into(self, name: str, room: int) -> bytes:
        """Return the text that the call puts into this much room; a room of 0 bytes is NULL. What
        stands after the text stays, and a refused call puts nothing. If the room is too small, the
        exception has the length."""
        text, length = odd_array(c_uint8, room), c_size_t(ODD_NUMBER)
        given = text if room else None
        status = getattr(self.calls, f"dmf_session_{name}")(
            self.session, given, c_size_t(room), byref(length)
        )
        assert (status == NO_MEMORY) == (length.value == ODD_NUMBER)
        written = length.value if status == 0 else 0
        assert set(bytes(text)[written:]) == {ODD}
        want(status, length.value if status == BAD_LENGTH else 0)
        return bytes(text)[:written]
