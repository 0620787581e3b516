"""How a run may end of which requests for memory were refused."""

from __future__ import annotations

import re
from functools import lru_cache

import built
from built import Case, Run
from oracle.program import OUT_OF_MEMORY, Outcome
from oracle.session import Refusals

REFUSED = "memory", -1, -1


@lru_cache(maxsize=1000)
def wanted_without(case: Case, lines: tuple[int, ...]) -> Outcome:
    """How the second implementation ends on a case, whose problem was put, where these lines are
    refused memory."""
    return built.wanted(case, Refusals(lines))


def ways_of(case: Case, run: Run, row: int) -> list[str | int]:
    """In which of the three ways a run ended of which so many requests in a row were refused, if in
    one: `nothing`, the numbers of the refused lines, or `ample`."""
    if OUT_OF_MEMORY.allows(*run):
        return ["nothing"]
    lines = [
        int(line) for line in re.findall(rb"^c refused (\d+) no memory$", run.out, re.MULTILINE)
    ]
    # A line that may not be refused memory is not refused by the second implementation.
    if len(lines) > row or not wanted_without(case, tuple(lines)).allows(*run):
        return []
    return [*lines] or ["ample"]
