"""How a person reads a sheet in `office/`: its arcs, in most sheets those of one valley, and what a
reader must tell, or ask."""

from __future__ import annotations

from collections.abc import Mapping, Sequence
from dataclasses import dataclass, field
from typing import Any

Arcs = Sequence[tuple[str, str, Any]]
# Most sheets are of one valley. Of the 65 that reach the Town, 40 come from the Mill and 25 from
# the Hill.
VALLEY: Arcs = (
    ("Lake", "Mill", 50),
    ("Lake", "Hill", 30),
    ("Mill", "Town", 40),
    ("Hill", "Town", 25),
    ("Mill", "Hill", 10),
)
# Without the pipe from the Hill to the Town.
CLOSED: Arcs = (*VALLEY[:3], ("Hill", "Town", 0), VALLEY[4])
TWO_WAY: Arcs = (*VALLEY[:4], ("Hill", "Mill", 10), ("Mill", "Hill", 10))
THOUSANDS: Arcs = (
    ("Lake", "Mill", 12400),
    ("Lake", "Hill", 1200),
    ("Mill", "Town", 850),
    ("Hill", "Town", 2300),
    ("Mill", "Hill", 90),
)
TENTHS: Arcs = (THOUSANDS[0], ("Lake", "Hill", "1200.5"), *THOUSANDS[2:])
# The valley by the coordinates of its places.
CORNERS: Arcs = (
    ("0,10", "10,20", 50),
    ("0,10", "10,0", 30),
    ("10,20", "20,10.5", 40),
    ("10,0", "20,10.5", 25),
    ("10,20", "10,0", 10),
)
NO_TOWN: Arcs = (*VALLEY[:2], ("Mill", "Town", 0), VALLEY[3], ("Mill", "Hill", 0))


@dataclass(frozen=True)
class Read:
    """A sheet that is read: the line that tells what was taken for what, other lines that are told
    (each in part), and the arcs that a person sees in it."""

    told: str
    arcs: Arcs = VALLEY
    notes: Sequence[str] = ()
    given: Mapping[str, Any] = field(default_factory=dict)


@dataclass(frozen=True)
class Asked:
    """A sheet that two people could read in two ways, or that has a fault: what is said, each in
    part, and what settles it."""

    said: Sequence[str]
    settled: Mapping[str, Any] = field(default_factory=dict)
    arcs: Arcs = VALLEY
