"""Cases of solutions that are checked, right and wrong ones, worked out by hand."""

from __future__ import annotations

from worked_forms import CROSSED, LARGEST_FLOW, LOOSE, NO_ARCS, TWO, checked, wrong

# Parallel arcs that can carry the largest number together, beside one of capacity 0.
FULL = "p max 2 3 / n 1 s / n 2 t / a 1 2 18446744073709551614 / a 1 2 0 / a 1 2 1"
CHECKS = [
    checked("no flow", CROSSED, b"s 0", "c flow 0"),
    checked("no arcs", NO_ARCS, "s 0", "c greatest 0"),
    checked(
        "the largest value, in one line for parallel arcs",
        FULL,
        LARGEST_FLOW,
        "c greatest 18446744073709551615",
    ),
    checked(
        "two lines for it",
        FULL,
        b"f 1 2 18446744073709551614\ns 18446744073709551615\nf 1 2 1",
        "c greatest 18446744073709551615",
    ),
    checked(
        "an arc without a line", CROSSED, b"s 3\nf 1 2 3\nf 2 3 1\nf 2 4 2\nf 3 4 1", "c flow 3"
    ),
    checked("lines that put no flow on arcs", CROSSED, b"s 0\nf 1 2 0\nf 3 4 0", "c flow 0"),
    checked(
        "lines with the same ends add up",
        CROSSED,
        "s 2 / f 1 2 1 / f 2 4 1 / f 1 2 1 / f 2 4 0 / f 2 4 1",
        "c flow 2",
    ),
    checked(
        "a loose solution",
        CROSSED,
        b"comment\r\n\r\n \t\r\n  f 1\t3 002 \r\nf  3 4 0000000000000000000000002\r\n\ts 2\r\n"
        b"cx\r\n",
        "c flow 2",
    ),
    checked("a blank line at the end", CROSSED, b"s 2\nf 2 4 2\nf 1 2 2\n\n", "c flow 2"),
    checked(
        "two lines for parallel arcs", LOOSE, b"s 9\nf 1 2 5\nf 2 3 9\nf 1 2 4", "c greatest 9"
    ),
    checked("just the first of parallel arcs", LOOSE, b"s 4\nf 1 2 4\nf 2 3 4", "c flow 4"),
    checked(
        "less than the first of parallel arcs takes", LOOSE, b"s 3\nf 1 2 3\nf 2 3 3", "c flow 3"
    ),
    checked(
        "parallel arcs that are full, and flow back into the source",
        LOOSE,
        b"s 5\nf 1 2 11\nf 2 1 6\nf 2 3 5",
        "c flow 5",
    ),
    checked("flow on an arc that comes back to its tail", LOOSE, b"s 0\nf 2 2 9", "c flow 0"),
]
# Solutions with their faults.
SOLUTIONS: dict[str | bytes, str] = {
    b"c\n\n": "line 3: value line missing",
    "x": "line 1: unknown line",
    "a 1 2 3": "line 1: unknown line",
    "S 5": "line 1: unknown line",
    "sx 5": "line 1: unknown line",
    "s": "line 1: wrong number of fields",
    "s 1 2": "line 1: wrong number of fields",
    "f 1 2": "line 1: wrong number of fields",
    "f 1 2 3 4": "line 1: wrong number of fields",
    b"s x": "line 1: not a number",
    "s -1": "line 1: not a number",
    "s 1.5": "line 1: not a number",
    "s 18446744073709551616": "line 1: number too large",
    "f 1 2 18446744073709551616": "line 1: number too large",
    "f 1 x 3": "line 1: not a number",
    "f 2 1 1": "line 1: no such arc",
    "f 0 2 1": "line 1: no such arc",
    "f 1 5 0": "line 1: no such arc",
    "f 4294967297 2 1": "line 1: no such arc",
    "f 1 2 4": "line 1: over capacity",
    "f 1 2 18446744073709551615": "line 1: over capacity",
    "s 3 / f 1 3 2 / f 2 4 2": "line 4: flow not conserved at node 2",
    "s 2 / f 1 3 2": "line 3: flow not conserved at node 3",
    "s 2 / f 1 2 3 / f 2 3 1 / f 2 4 2 / f 3 4 1": "line 6: value differs",
    # The order in which a line is judged.
    "s 0 / s x y": "line 2: second value line",
    "f x y": "line 1: wrong number of fields",
    "f 4 1 x": "line 1: not a number",
    "f 18446744073709551616 x 1": "line 1: number too large",
    "f x 18446744073709551616 1": "line 1: not a number",
    "f 4 1 9": "line 1: no such arc",
    # The first bad line is told, and a fault of a line before one of the end.
    "f 1 2 2 / f 1 2 2 / s x": "line 2: over capacity",
    "f 1 2 18446744073709551616 / x": "line 1: number too large",
    b"f 1 2 3\n\nc\nx": "line 4: unknown line",
    b"f 1 2 3": "line 2: value line missing",
}
WRONG = [
    *(wrong(CROSSED, solution, told) for solution, told in SOLUTIONS.items()),
    wrong(LOOSE, "f 1 2 11 / s 9 / f 1 2 0 / f 1 2 1", "line 4: over capacity"),
    wrong(f"{TWO} / a 2 1 5", "s 3 / f 2 1 3", "line 3: value differs"),
    wrong(FULL, "s 0 / f 1 2 18446744073709551615 / f 1 2 1", "line 3: over capacity"),
    wrong(
        FULL,
        "s 0 / f 1 2 18446744073709551615 / f 1 2 18446744073709551615",
        "line 3: over capacity",
    ),
    wrong(FULL, "s 0 / f 1 2 18446744073709551616", "line 2: number too large"),
    # A fault of the problem is told before one of its solution.
    wrong("p max 1 0", "x", "line 1: count out of range"),
]
