"""What new arcs would bring, as the library finds it: only arcs that leave the smallest minimum cut
gain anything."""

from __future__ import annotations

import ctypes
from array import array

from ..text.lexical import AMOUNTS
from .base import ArcColumns
from .library_calls import LibraryCalls, place_of
from .statuses import SUM_TOO_LARGE, TOO_MANY_ARCS
from .stops import Flag, is_answered

# In how many calls the gains of new arcs are found at most, where there is no room for all of them
# at once.
MOST_ASKED = 16


def gains(
    calls: LibraryCalls, address: ctypes.c_void_p, arcs: ArcColumns, marks: array[int], flag: Flag
) -> array[int] | None:
    """Return the gains of all these arcs, or None if the session does not tell. A mark is 1 on the
    source's side of the smallest minimum cut. The library is asked for the arcs that leave that,
    since the others gain nothing, and need no room in it. Raises `CallStopped` if the flag is
    raised before that."""
    ends = enumerate(zip(arcs.tails, arcs.heads))
    leaving = [at for at, (tail, head) in ends if marks[tail - 1] > marks[head - 1]]
    chosen = (array(it.typecode, [it[at] for at in leaving]) for it in arcs)
    found = _together(calls, address, ArcColumns(*chosen), flag, MOST_ASKED)
    if found is None:
        return None
    each = array(AMOUNTS, [0]) * len(arcs.tails)
    for at, gain in zip(leaving, found):
        each[at] = gain
    return each


def _together(
    calls: LibraryCalls, address: ctypes.c_void_p, arcs: ArcColumns, flag: Flag, most: int
) -> array[int] | None:
    """Return the gains of all these arcs at once, or of each half of them where the library can
    take no more together, with at most `most` calls that tell gains."""
    count = len(arcs.tails)
    found = array(AMOUNTS, [0]) * count
    columns = [part for column in (*arcs, found) for part in (place_of(column), count)]
    status = calls.new_arc_gains(address, *columns, flag.calling)
    if status not in (TOO_MANY_ARCS, SUM_TOO_LARGE):
        return found if is_answered(status) else None
    if count <= 1 or most == 1:
        return None
    for half in slice(count // 2), slice(count // 2, None):
        few = ArcColumns(*(it[half] for it in arcs))
        of_half = _together(calls, address, few, flag, most // 2)
        if of_half is None:
            return None
        found[half] = of_half
    return found
