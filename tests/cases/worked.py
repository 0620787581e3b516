"""Cases that were worked out by hand, and what the definitions give in them."""

from __future__ import annotations

from collections.abc import Iterator

from built import PROBLEM, Case
from oracle.program import Outcome
from worked_forms import (
    CROSSED,
    CROSSED_CUT,
    CROSSED_FLOW,
    CUT,
    JOINED,
    LARGEST,
    LOOSE,
    LOOSE_FLOW,
    NODES,
    PAIRS,
    PARALLEL,
    SECOND,
    TWO,
    WORST,
    Worked,
    checked,
    faulty,
    held,
    solved,
    text,
    valued,
    without_room,
    wrong,
)
from worked_sessions import BRIEF_SESSIONS, HISTORIES, SESSIONS

SOLVES = [
    solved("two ways that cross", CROSSED, CROSSED_FLOW),
    solved("two ways that cross, with the cut", CROSSED, f"{CROSSED_FLOW} / {CROSSED_CUT}", CUT),
    solved("the largest capacity", LARGEST, "s 18446744073709551615 / f 1 2 18446744073709551615"),
    solved("no arcs", "p max 2 0 / n 1 s / n 2 t", "s 0 / c cut 0 / c side 1", CUT),
    solved("a loose text", LOOSE, LOOSE_FLOW),
    solved(
        "arcs count by their places and not by their heads",
        "p max 5 5 / n 1 s / n 5 t / a 1 3 1 / a 1 2 1 / a 2 4 1 / a 3 4 1 / a 4 5 1",
        "s 1 / f 1 3 1 / f 1 2 0 / f 2 4 0 / f 3 4 1 / f 4 5 1",
    ),
]
CHECKS = [
    checked(
        "a greatest flow, its lines in any order",
        CROSSED,
        "f 3 4 3 / s 5 / f 1 2 3 / f 2 4 2 / f 1 3 2 / f 2 3 1",
        "c greatest 5",
    ),
    checked(
        "a flow that is not greatest",
        CROSSED,
        "s 3 / f 1 2 3 / f 2 3 1 / f 2 4 2 / f 3 4 1",
        "c flow 3",
    ),
    checked("one line for parallel arcs", LOOSE, "s 9 / f 1 2 9 / f 2 3 9", "c greatest 9"),
    checked("no flow is possible", f"{TWO} / a 2 1 5", "s 0", "c greatest 0"),
]
VITAL = [
    valued(
        "without each arc of two ways that cross",
        CROSSED,
        "c value 5 / v 1 2 / v 2 3 / v 3 4 / v 4 3 / v 5 2",
    ),
    valued(
        "without the only arc, of the largest capacity",
        LARGEST,
        "c value 18446744073709551615 / v 1 0",
    ),
    valued("no arc to lose", "p max 2 0 / n 1 s / n 2 t", "c value 0"),
    valued(
        "an arc for which another stands in",
        JOINED,
        "c value 1 / v 1 1 / v 2 1 / v 3 1 / v 4 1 / v 5 0",
    ),
    valued(
        "without arcs of a loose text", LOOSE, "c value 9 / v 1 7 / v 2 9 / v 3 4 / v 4 9 / v 5 0"
    ),
    valued(
        "without parallel arcs",
        PARALLEL,
        "c value 5 / v 1 4 / v 2 5 / v 3 3 / v 4 2 / v 5 3 / v 6 3",
    ),
    valued(
        "without arcs that carry nothing",
        "p max 2 4 / n 1 s / n 2 t / a 1 2 0 / a 2 1 5 / a 1 2 3 / a 1 1 4",
        "c value 3 / v 1 3 / v 2 3 / v 3 0 / v 4 3",
    ),
    valued("no arc leads on", f"{TWO} / a 2 1 5", "c value 0 / v 1 0"),
    valued(
        "without one of two halves of 64 bits",
        "p max 2 2 / n 1 s / n 2 t / a 1 2 9223372036854775807 / a 1 2 9223372036854775808",
        "c value 18446744073709551615 / v 1 9223372036854775808 / v 2 9223372036854775807",
    ),
    valued("without each node of two ways that cross", CROSSED, "c value 5 / v 2 2 / v 3 2", NODES),
    valued("no node to lose", LARGEST, "c value 18446744073709551615", NODES),
    valued("a node that no arc is at", "p max 3 0 / n 1 s / n 3 t", "c value 0 / v 2 0", NODES),
    valued("nodes for which another stands in", JOINED, "c value 1 / v 2 1 / v 3 1 / v 4 0", NODES),
    valued("without the node of a loose text", LOOSE, "c value 9 / v 2 0", NODES),
    valued("without nodes of parallel arcs", PARALLEL, "c value 5 / v 2 2 / v 3 3", NODES),
    valued(
        "nodes below and above the source and the sink",
        "p max 4 3 / n 3 s / n 2 t / a 3 1 5 / a 1 2 4 / a 2 3 9",
        "c value 4 / v 1 0 / v 4 4",
        NODES,
    ),
    valued(
        "a node whose flow can take another way",
        "p max 5 5 / n 1 s / n 5 t / a 1 2 3 / a 2 3 3 / a 2 4 3 / a 3 5 3 / a 4 5 3",
        "c value 3 / v 2 0 / v 3 3 / v 4 3",
        NODES,
    ),
    valued(
        "a node whose flow can take another way in part",
        "p max 5 6 / n 1 s / n 5 t / a 1 2 5 / a 1 3 1 / a 2 3 2 / a 2 4 4 / a 3 5 3 / a 4 5 4",
        "c value 6 / v 2 1 / v 3 4 / v 4 3",
        NODES,
    ),
    valued("the worst arc", CROSSED, "c value 5 / v 1 2", WORST, b"1"),
    valued("of two equal losses the first", CROSSED, "c value 5 / v 1 2 / v 5 2", WORST, b"2"),
    valued(
        "equal losses in order of number",
        CROSSED,
        "c value 5 / v 1 2 / v 5 2 / v 2 3 / v 4 3",
        WORST,
        b"4",
    ),
    valued(
        "all arcs, the worst first",
        CROSSED,
        "c value 5 / v 1 2 / v 5 2 / v 2 3 / v 4 3 / v 3 4",
        WORST,
        b"10000",
    ),
    valued("none of the worst", CROSSED, "c value 5", WORST, b"0"),
    valued(
        "the two worst of three nodes",
        "p max 5 6 / n 1 s / n 5 t / a 1 2 5 / a 1 3 1 / a 2 3 2 / a 2 4 4 / a 3 5 3 / a 4 5 4",
        "c value 6 / v 2 1 / v 4 3",
        NODES,
        WORST,
        b"2",
    ),
    valued(
        "two cuts that each let through no more",
        CROSSED,
        "c value 5 / v 1 2 5 / v 2 3 5 / v 3 4 5 / v 4 3 5 / v 5 2 5",
        SECOND,
    ),
    valued(
        "only the arc that all units share gains by a second one, and no loop or way back",
        "p max 3 5 / n 1 s / n 3 t / a 1 2 9 / a 2 3 4 / a 2 2 7 / a 3 1 5 / a 2 3 0",
        "c value 4 / v 1 0 4 / v 2 0 8 / v 3 4 4 / v 4 4 4 / v 5 4 4",
        SECOND,
    ),
    without_room("a second arc would carry past 64 bits", LARGEST),
    valued("no pair", LARGEST, "c value 18446744073709551615", PAIRS, WORST, b"1"),
    valued("none of the worst pairs", CROSSED, "c value 5", PAIRS, WORST, b"0"),
    valued(
        "all pairs, the worst first and equal losses in order of both numbers",
        CROSSED,
        "c value 5 / v 1 2 0 / v 1 5 0 / v 4 5 0 / v 1 3 2 / v 1 4 2 / v 2 3 2 / v 2 5 2 / v 3 4 2 "
        "/ v 3 5 2 / v 2 4 3",
        PAIRS,
        WORST,
        b"10000",
    ),
    valued(
        "pairs of arcs of which each has another to stand in",
        JOINED,
        "c value 1 / v 1 2 0 / v 1 4 0 / v 1 5 0 / v 2 3 0 / v 2 5 0 / v 3 4 0 / v 3 5 0 / v 4 5 0 "
        "/ v 1 3 1",
        PAIRS,
        WORST,
        b"9",
    ),
    valued(
        "without both halves of 64 bits",
        "p max 2 2 / n 1 s / n 2 t / a 1 2 9223372036854775807 / a 1 2 9223372036854775808",
        "c value 18446744073709551615 / v 1 2 0",
        PAIRS,
        WORST,
        b"1",
    ),
    valued(
        "the worst pairs beside parallel arcs and a loop",
        PARALLEL,
        "c value 5 / v 4 5 0 / v 4 6 0 / v 3 5 1 / v 3 6 1",
        WORST,
        b"4",
        PAIRS,
    ),
]
FAULTS = [
    wrong(CROSSED, "s 4 / f 1 2 3 / f 2 3 1 / f 2 4 2 / f 3 4 1", "line 6: value differs"),
    wrong(CROSSED, "", "line 1: value line missing"),
    wrong(CROSSED, "s 3 / f 1 2 3", "line 3: flow not conserved at node 2"),
    wrong(CROSSED, "f 4 1 0", "line 1: no such arc"),
    wrong(CROSSED, "s 0 / s 0", "line 2: second value line"),
    wrong(CROSSED, "S 0", "line 1: unknown line"),
    wrong(LOOSE, "s 9 / f 1 2 12 / f 2 3 9", "line 2: over capacity"),
    wrong(f"{TWO} / a 2 1 5", "s 0 / f 2 1 3", "line 3: value differs"),
    faulty(LARGEST.replace("2 1 /", "2 2 /", 1) + " / a 1 2 1", "line 5: capacities past 64 bits"),
    faulty(CROSSED.removesuffix(" / a 3 4 3"), "line 8: too few arcs"),
    faulty(CROSSED.replace("a 1 2 3", "a 1 2 0 3 5"), "line 4: wrong number of fields", b"session"),
    faulty("", "line 1: problem line expected"),
    faulty(f"{TWO} / a 1 3 1", "line 4: no such node", b"vital"),
    faulty(f"{TWO} / a 1 2 -1", "line 4: not a number", b"vital", NODES),
    faulty("n 1 s", "line 1: problem line expected"),
    faulty("a 9", "line 1: problem line expected", b"check"),
    faulty("x", "line 1: unknown line"),
    faulty("p min 4 5", "line 1: not a max problem"),
    faulty("P max 2 0", "line 1: unknown line"),
    faulty("p MAX 2 0", "line 1: not a max problem"),
    faulty("p max 2 0 / n 1 S", "line 2: neither source nor sink"),
    faulty("p max 4", "line 1: wrong number of fields"),
    faulty("p min 4", "line 1: wrong number of fields"),
    faulty("p max 4 +5", "line 1: not a number"),
    faulty("p max 1 x", "line 1: not a number"),
    faulty("p max 1 0", "line 1: count out of range"),
    faulty("p max 16777217 0", "line 1: count out of range"),
    faulty("p max 2 134217729", "line 1: count out of range"),
    faulty("p max 16777216 134217728", "line 2: source or sink missing"),
    faulty("p max 2 1 / n 3 s", "line 2: no such node"),
    faulty("p max 2 1 / n 1 x", "line 2: neither source nor sink"),
    faulty("p max 2 1 / n 0 x", "line 2: neither source nor sink"),
    faulty("p max 2 1 / n 1 s / n 2 s", "line 3: terminal named twice"),
    faulty("p max 2 1 / n 1 s / n 1 t", "line 3: source and sink are the same"),
    faulty("p max 2 1 / n 1 s / a 1 2 1", "line 3: arc before source and sink"),
    faulty("p max 2 0 / a 1 2 1", "line 2: arc before source and sink"),
    faulty("p max 2 0 / n 1 s", "line 3: source or sink missing"),
    faulty("p max 2 0 / n 1 s / n 2 t / a 1 2 1", "line 4: too many arcs"),
    faulty(f"{TWO} / a 1 2 18446744073709551616", "line 4: number too large"),
    faulty(f"{TWO} / a 1 2 1.5", "line 4: not a number"),
    faulty("p max 2 0 / p max 2 0", "line 2: second problem line"),
    faulty(
        "p max 2 2 / n 1 s / n 2 t / a 1 2 9223372036854775808 / a 1 2 9223372036854775808",
        "line 5: capacities past 64 bits",
    ),
]
WORKED = SOLVES + SESSIONS + BRIEF_SESSIONS + HISTORIES + CHECKS + VITAL + FAULTS
# As many command lines as a session takes, and one more.
LIMITS = [
    held(
        "a million command lines",
        CROSSED,
        b"undo\n" + b"\n" * 999_999,
        "c refused 1 nothing to undo",
    ),
    Worked(
        Case(
            "a million command lines and one",
            (b"session", PROBLEM),
            text(CROSSED),
            b"undo\n" + b"\n" * 1_000_000,
        ),
        Outcome(4, text("c refused 1 nothing to undo"), b"dmf: too much input\n"),
    ),
]


def prefixes() -> Iterator[tuple[Case, int | None]]:
    """Cases with each prefix of a text: a problem, commands and a solution that end anywhere. Each
    is given with its status, where that is known: a problem is whole where at most the end of its
    last line is missing."""
    problem = text(CROSSED)
    commands, solution = SESSIONS[-1].case.input, text(CROSSED_FLOW)
    for command, whole in (
        (b"solve", problem),
        (b"vital", problem),
        (b"session", commands),
        (b"check", solution),
    ):
        reads_problem = command in (b"solve", b"vital")
        words = (command,) if reads_problem else (command, PROBLEM)
        for end in range(len(whole) + 1):
            status = 3 * (end + 1 < len(whole)) if reads_problem else None
            yield Case(
                f"the first {end} bytes for {command.decode()}", words, problem, whole[:end]
            ), status
