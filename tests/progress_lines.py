"""The lines in which the program shows its progress, read by tests."""

from __future__ import annotations

import re
from itertools import pairwise

ERASED = "\r\x1b[K"
WORD = re.compile(
    r"dmf: (?:(reading|writing), \d+ MB(?: of \d+ MB)?"
    r"|(solving), value (\d+)(?: of at most \d+)?, phase (\d+), (\d+) paths"
    r"|(valuing), \d+ of \d+)"
)


def words_of(told: str) -> list[re.Match[str]]:
    """The words of a text of which nothing else is left: each stands on an erased line, and the
    last is erased."""
    pieces = told.split(ERASED)
    words = [WORD.fullmatch(piece) for piece in pieces if piece]
    assert not pieces[0] and not pieces[-1] and all(words), told
    return [word for word in words if word]


def tasks(words: list[re.Match[str]]) -> list[str]:
    """What lines of progress are about, in their order, each once."""
    return [*dict.fromkeys(word[1] or word[2] or word[6] for word in words)]


def tasks_of(told: str) -> list[str]:
    return tasks(words_of(told))


def lines_of(told: bytes) -> list[str]:
    """What the words tell of where each is a line, in their order, each once."""
    words = [WORD.fullmatch(line) for line in told.decode().splitlines()]
    assert all(words) and told.endswith(b"\n"), told
    return tasks([word for word in words if word])


def solves_of(told: str) -> list[list[tuple[int, int, int]]]:
    """The words of each solve: value, phase and paths. A solve begins with fewer paths than the one
    before had."""
    solves: list[list[tuple[int, int, int]]] = []
    for word in words_of(told):
        value, phase, paths = map(int, word.groups()[2:5])
        if not solves or paths < solves[-1][-1][2]:
            solves.append([])
        solves[-1].append((value, phase, paths))
    return solves


def is_on_its_way(solve: list[tuple[int, int, int]]) -> bool:
    """Whether values, phases and paths never fall, and there is a path or more for each phase, and
    a unit for each path."""
    never_fall = all(a <= b for one, other in pairwise(solve) for a, b in zip(one, other))
    return never_fall and all(1 <= phase <= paths <= value for value, phase, paths in solve)
