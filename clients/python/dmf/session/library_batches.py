"""Commands that cross into the library together, in one call of dmf_session_run."""

from __future__ import annotations

import ctypes
from array import array
from collections.abc import Iterator, Sequence
from typing import Any

from ..history import Command
from ..text.lexical import AMOUNTS, NODES
from .library_calls import SIZE, LibraryCalls, place_of
from .statuses import OK

# The numbers of `enum dmf_command`.
KINDS = {"cap": 1, "add": 2, "close": 3, "shut": 4, "solve": 5, "undo": 6, "redo": 7}
# How many commands, or cases of a sweep, cross together. Whoever ends the session waits for them.
TOGETHER = 16
# The numbers that a command does not have.
NONE = 0, 0, 0
SOLVE = ("solve",)


def run(
    calls: LibraryCalls, address: ctypes.c_void_p, commands: Sequence[Command]
) -> tuple[int, array[int]]:
    """Carry out commands up to the first that is refused. Returns the library's status, and the
    value after each command that was carried out."""
    kinds, *numbers = zip(*((KINDS[word], *rest, *NONE)[:4] for word, *rest in commands))
    values, done = array(AMOUNTS, bytes(8 * len(commands))), SIZE()
    columns = [array(NODES, kinds), *(array(AMOUNTS, column) for column in numbers), values]
    places: list[Any] = [part for column in columns for part in (place_of(column), len(commands))]
    status = calls.run(address, *places, ctypes.byref(done))
    return status, values[: done.value]


def pieces(commands: Sequence[Command], is_large: bool) -> Iterator[Sequence[Command]]:
    """Yield commands in their order, in pieces that cross together. On a large network, where a
    solve may take long, only the last one of a piece is a solve."""
    place = 0
    while place < len(commands):
        piece = commands[place : place + TOGETHER]
        if is_large and SOLVE in piece:
            piece = piece[: piece.index(SOLVE) + 1]
        yield piece
        place += len(piece)


def try_together(
    calls: LibraryCalls,
    address: ctypes.c_void_p,
    cases: Sequence[Sequence[Command]],
    found: list[int],
) -> None:
    """Carry out cases, each with a solve and the steps back, and append the value that each solve
    finds. Raises a ValueError if anything is refused, with the values of the cases before it."""
    commands: list[Command] = []
    ends = []
    for case in cases:
        commands += case
        ends.append(len(commands))
        commands += SOLVE, ("undo", len(case) + 1)
    status, values = run(calls, address, commands)
    found += [values[end] for end in ends if end + 1 < len(values)]
    if status != OK:
        raise ValueError
