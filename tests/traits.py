"""What random sessions are to have now and then, since the program works otherwise there."""

from __future__ import annotations

import re
from collections import Counter
from collections.abc import Iterator

from built import Case
from commands import COMMANDS

HUB, CHAIN, MADE_AGAIN, BOTH_WAYS = (
    "a hub",
    "a long chain of changes",
    "an addition made again",
    "a shut of a node with arcs both ways",
)
TRAITS = {HUB, CHAIN, MADE_AGAIN, BOTH_WAYS}
# A hub has a third of so many arcs, and a chain has so many changes between two solves.
FEWEST_ARCS, LONG = 12, 20
# The letters of the lines of a script: c for a change, s for a solve, a for an addition, u and r
# for undo and redo.
LETTERS = {
    **{word.encode(): "c" for word, it in COMMANDS.items() if it.changes},
    b"solve": "s",
    b"add": "a",
    b"undo": "u",
    b"redo": "r",
}


def fields_of(text: bytes) -> list[list[bytes]]:
    """The fields of each line, with numbers without leading zeros."""
    return [
        [re.sub(rb"^0+(?=\d+$)", b"", field) for field in line.split()]
        for line in text.split(b"\n")
    ]


def traits(case: Case) -> Iterator[str]:
    if case.words[:1] != (b"session",):
        return
    problem, script = fields_of(case.problem), fields_of(case.input)
    ends = [
        (fields[1], fields[2]) for fields in problem if fields[:1] == [b"a"] and len(fields) == 4
    ]
    terminals = [fields[1] for fields in problem if fields[:1] == [b"n"] and len(fields) == 3]
    degrees = Counter(node for pair in ends for node in {*pair} if node not in terminals)
    if len(ends) >= FEWEST_ARCS and max(degrees.values(), default=0) * 3 >= len(ends):
        yield HUB
    letters = "".join(LETTERS.get(fields[0], "") for fields in script if fields)
    if re.search(f"s[ca]{{{LONG},}}s", letters):
        yield CHAIN
    if "aur" in letters:
        yield MADE_AGAIN
    pairs = {*ends}
    opposite = {tail for tail, head in pairs if tail != head and (head, tail) in pairs}
    if any(fields[:1] == [b"shut"] and fields[1:] and fields[1] in opposite for fields in script):
        yield BOTH_WAYS
