"""The columns of problems and flows as texts: lines are written from columns and read to columns,
many at once, with numpy where the caller has imported it."""

from __future__ import annotations

import contextlib
import functools
import importlib
import re
import sys
from array import array
from collections.abc import Iterator
from typing import Any

from ..text.lexical import AMOUNTS, NODES
from .base import ProblemColumns, import_package

# How many lines of a text are written or read at once with numpy, and how many without, where each
# number is an object.
PIECE, PLAIN_PIECE = 1 << 14, 1 << 11
# With more arcs than this, reading is faster with numpy even if it has to be imported first.
MOST_PLAIN = 200_000
# How many letters of a text are read at once.
LETTERS = 1 << 18
_FLOW = re.compile(rb"^f [0-9]+ [0-9]+ ([0-9]+)$", re.MULTILINE)


def loaded_numpy() -> Any:
    """Return numpy if the caller has imported it already, for work that it speeds up but does not
    need."""
    return sys.modules.get("numpy")


def problem_lines(problem: ProblemColumns) -> Iterator[bytes]:
    """Yield the arc lines of a problem, many at once."""
    np, count = loaded_numpy(), len(problem.tails)
    size = PLAIN_PIECE if np is None else PIECE
    for begin in range(0, count, size):
        end = min(begin + size, count)
        piece = [column[begin:end] for column in problem.columns()]
        yield _plain_lines(piece) if np is None else _lines(np, piece)


def problem_pieces(problem: ProblemColumns) -> Iterator[bytes]:
    """Yield the text of a problem in pieces."""
    yield b"p max %d %d\nn %d s\nn %d t\n" % (
        problem.nodes,
        len(problem.tails),
        problem.source,
        problem.sink,
    )
    yield from problem_lines(problem)


def _plain_lines(columns: list[array[int]]) -> bytes:
    count = len(columns[0])
    numbers = [0] * (3 * count)
    for place, column in enumerate(columns):
        numbers[place::3] = column
    return ("a %d %d %d\n" * count % tuple(numbers)).encode()


def _lines(np: Any, columns: list[array[int]]) -> bytes:
    """Return the same lines, all of one width: each number has leading zeros, up to a multiple of
    four digits."""
    four_digits = _four_digits(np)
    # Each field of a line: its type, its position, and what stands there.
    fields: list[tuple[str, int, Any]] = [("u1", 0, ord("a"))]
    width = 1
    for column in columns:
        numbers = np.frombuffer(column, f"u{column.itemsize}")
        blocks = -(-len(str(numbers.max())) // 4)
        fields.append(("u1", width, ord(" ")))
        for block in range(blocks, 0, -1):
            rest = numbers // 10_000
            fields.append(("u4", width + 4 * block - 3, four_digits[numbers - rest * 10_000]))
            numbers = rest
        width += 1 + 4 * blocks
    fields.append(("u1", width, ord("\n")))
    types, places, contents = zip(*fields)
    names = list(map(str, range(len(fields))))
    lines = np.empty(
        len(columns[0]),
        {"names": names, "formats": types, "offsets": places, "itemsize": width + 1},
    )
    for name, content in zip(names, contents):
        lines[name] = content
    return bytes(lines.tobytes())


@functools.cache
def _four_digits(np: Any) -> Any:
    """Return the numbers below 10,000 as texts of four digits, each as one number of four bytes."""
    return np.frombuffer(b"".join(map(b"%04d".__mod__, range(10_000))), "u4")


def numpy_for(count: int) -> Any:
    """Return numpy if it is imported, or if it is installed and there are enough arcs to make
    importing it worthwhile."""
    if count >= MOST_PLAIN:
        with contextlib.suppress(ImportError):
            return importlib.import_module("numpy")
    return loaded_numpy()


def pieces_of(lines: bytes) -> Iterator[bytes]:
    """Yield lines in groups, as many at once as the processor's cache holds."""
    begin = 0
    while begin < len(lines):
        end = lines.rfind(b"\n", begin, begin + LETTERS) + 1
        yield lines[begin:end]
        begin = end


def read_lines(lines: bytes, np: Any) -> tuple[array[int], array[int], array[int]]:
    """Return the tails, the heads and the capacities in arc lines, read with numpy if it is given.
    Raises a ValueError for other lines."""
    count = lines.count(b"\n")
    # Without the letters of the lines, only numbers remain.
    text = lines.replace(b"a", b"")
    if np is None:
        numbers = list(map(int, text.split()))
        columns = (
            array(NODES, numbers[0::3]),
            array(NODES, numbers[1::3]),
            array(AMOUNTS, numbers[2::3]),
        )
    else:
        found = np.fromstring(text, np.uint64, sep=" ")
        columns = array(NODES), array(NODES), array(AMOUNTS)
        for place, column in enumerate(columns):
            column.frombytes(found[place::3].astype(f"u{column.itemsize}").tobytes())
    if any(len(column) != count for column in columns):
        raise ValueError
    return columns


def read_flows(text: bytes, count: int) -> array[int] | None:
    """Return the flows in a solution's text, or None unless it has `count` of them."""
    try:
        found = array(AMOUNTS, (int(match[1]) for match in _FLOW.finditer(text)))
    except (OverflowError, ValueError):
        return None
    return found if len(found) == count else None


def flow_array(text: bytes | array[int], count: int) -> Any:
    """Return the flows of a solution's text, or of a column, as a numpy array."""
    np = import_package("numpy", "an array of flows")
    column = (
        np.frombuffer(text, np.uint64)
        if isinstance(text, array)
        else _last_numbers(np, text, count)
    )
    return column.astype(kind_for(column))


def kind_for(numbers: Any) -> str:
    """Return the type for the numbers of an unsigned array: signed, unless one is 2^63 or more."""
    return "uint64" if numbers.size and int(numbers.max()) >> 63 else "int64"


def _last_numbers(np: Any, text: bytes, count: int) -> Any:
    """Return the last number of each line except the first."""
    letters = np.frombuffer(text, np.uint8)
    column = np.zeros(count, np.uint64)
    begin, done = text.find(b"\n") + 1, 0
    while begin < len(text):
        # As many lines as the processor's cache holds.
        end = text.rfind(b"\n", begin, begin + LETTERS) + 1
        ends = np.flatnonzero(letters[begin:end] == ord("\n"))
        if not ends.size or done + ends.size > count:
            break
        _add_last_numbers(np, letters[begin:end], ends, column[done : done + ends.size])
        begin, done = end, done + ends.size
    if done != count or begin != len(text):
        raise ValueError("the program did not give a flow for each open arc")
    return column


def _add_last_numbers(np: Any, letters: Any, ends: Any, column: Any) -> None:
    """Add the number before each of these positions to a column of zeros. The digits of all numbers
    are read together, from the last digit to the first."""
    rows, places, scale = np.arange(len(ends)), ends - 1, 1
    while rows.size:
        digits = letters[places] - np.uint8(ord("0"))
        # A space stands before the first digit; its code is less than that of every digit.
        within = digits < 10
        if not within.all():
            rows, places, digits = rows[within], places[within], digits[within]
        column[rows] += digits.astype(np.uint64) * np.uint64(scale)
        places, scale = places - 1, scale * 10 % 2**64
