"""What the C library answers: its numbers in include/dmf.h, and the program's words for them."""

from __future__ import annotations

OK, NO_MEMORY, NOT_GREATEST, BAD_LENGTH, BAD_TEXT = 0, 1, 9, 10, 12
TOO_MANY_ARCS, SUM_TOO_LARGE, STOPPED = 5, 6, 16
# The reasons for a refusal in the program's words, by their numbers in dmf.h.
REASONS = {
    NO_MEMORY: "no memory",
    2: "no such node",
    3: "no such arc",
    4: "arc is closed",
    TOO_MANY_ARCS: "too many arcs",
    SUM_TOO_LARGE: "capacities past 64 bits",
    7: "nothing to undo",
    8: "nothing to redo",
    NOT_GREATEST: "flow is not greatest",
}
# The faults of a problem text, in the order of their numbers, from 1.
FAULTS = (
    "problem line expected",
    "second problem line",
    "unknown line",
    "not a max problem",
    "wrong number of fields",
    "not a number",
    "number too large",
    "count out of range",
    "no such node",
    "neither source nor sink",
    "terminal named twice",
    "source and sink are the same",
    "arc before source and sink",
    "too many arcs",
    "too few arcs",
    "source or sink missing",
    "capacities past 64 bits",
    "no memory",
)
