"""More cases that were worked out by hand. None of their requests for memory is refused, and none
of their reads and writes fails."""

from __future__ import annotations

from worked_checks import CHECKS, WRONG
from worked_forms import (
    CROSSED,
    CROSSED_CUT,
    CROSSED_FLOW,
    CUT,
    LARGEST,
    LARGEST_FLOW,
    LOOSE,
    LOOSE_FLOW,
    NARROW_FLOW,
    NO_ARCS,
    NO_FLOW,
    faulty,
    held,
    solved,
    text,
)

# Nine arcs that can carry nothing, so that each of them may be given the largest capacity.
NINE = "p max 2 9 / n 1 s / n 2 t" + " / a 1 2 0" * 9
NINTH_LARGEST = NINE.removesuffix("0") + "18446744073709551615"
# The crossed ways with two arcs from the source to the sink.
ADDED = CROSSED.replace("4 5 /", "4 7 /", 1) + " / a 1 4 7" * 2
# What is left of them without the arcs at node 3, and its greatest flow.
OPEN = "p max 4 4 / n 1 s / n 4 t / a 1 2 3 / a 2 4 2 / a 1 4 7 / a 1 4 7"
OPEN_FLOW = "s 16 / f 1 2 2 / f 2 4 2 / f 1 4 7 / f 1 4 7"
OPEN_CUT = "c cut 16 / c side 1 / c side 2"
# Command lines that are refused for their words, their fields or their numbers, each with the text
# that tells it. Of two carriage returns the first is a byte of a field.
REFUSED_LINES = {
    b"cNote": "unknown command",
    b"ca 1 2": "unknown command",
    b"capx 1": "unknown command",
    b"Cap 1 2": "unknown command",
    b"closed 1": "unknown command",
    b"Undo": "unknown command",
    b"undo\r\r": "unknown command",
    b"undo\0": "unknown command",
    b"solved 1 2 3": "unknown command",
    b"shuts 1": "unknown command",
    b"Shut 1": "unknown command",
    b"cap": "wrong number of fields",
    b"cap x": "wrong number of fields",
    b"cap 1 2 3": "wrong number of fields",
    b"close": "wrong number of fields",
    b"close x 1": "wrong number of fields",
    b"shut": "wrong number of fields",
    b"shut 1 2": "wrong number of fields",
    b"shut x 1": "wrong number of fields",
    b"add 1 1": "wrong number of fields",
    b"add 1 1 1 x": "wrong number of fields",
    b"solve 1": "wrong number of fields",
    b"solve solve": "wrong number of fields",
    b"undo 1 1": "wrong number of fields",
    b"redo x 1": "wrong number of fields",
    b"print": "wrong number of fields",
    b"print side x": "wrong number of fields",
    b"print flow x": "wrong number of fields",
    b"print cut 1": "wrong number of fields",
    b"print side": "unknown command",
    b"print Problem": "unknown command",
    b"print flows": "unknown command",
    b"print cu": "unknown command",
    b"cap 1 -1": "not a number",
    b"cap x 18446744073709551616": "not a number",
    b"cap 18446744073709551616 x": "number too large",
    b"close 1.0": "not a number",
    b"close 18446744073709551616": "number too large",
    b"shut -1": "not a number",
    b"shut 18446744073709551616": "number too large",
    b"undo -1": "not a number",
    b"undo 1\r\r": "not a number",
    b"redo 18446744073709551616": "number too large",
    b"add x 18446744073709551616 1": "not a number",
    b"add 18446744073709551616 x 1": "number too large",
}

SOLVES = [
    solved("no arcs", NO_ARCS, "s 0"),
    solved(
        "the largest capacity, with the cut",
        LARGEST,
        f"{LARGEST_FLOW} / c cut 18446744073709551615 / c side 1",
        CUT,
    ),
    solved(
        "a loose text, with the cut", LOOSE, f"{LOOSE_FLOW} / c cut 9 / c side 1 / c side 2", CUT
    ),
    solved(
        "of two ways of the same length the one whose arcs come first, with the cut",
        "p max 5 5 / n 1 s / n 5 t / a 1 3 1 / a 1 2 1 / a 2 4 1 / a 3 4 1 / a 4 5 1",
        "s 1 / f 1 3 1 / f 1 2 0 / f 2 4 0 / f 3 4 1 / f 4 5 1 / c cut 1 / c side 1 / c side 2 / c "
        "side 3 / c side 4",
        CUT,
    ),
    solved("the last line has no end", text(CROSSED)[:-1], CROSSED_FLOW),
]
SESSIONS = [
    held(
        "a solve begins with the flow that draining left",
        CROSSED,
        "solve / cap 5 1 / solve / cap 5 3 / solve",
        f"{CROSSED_FLOW} / c cap value 3 / {NARROW_FLOW} / c cap value 3 / {CROSSED_FLOW}",
    ),
    held(
        "undo gives a drained flow back, redo takes it off again, and neither solves",
        CROSSED,
        "solve / cap 5 1 / undo / print flow / redo / print flow / print problem",
        f"{CROSSED_FLOW} / c cap value 3 / c undo value 5 / {CROSSED_FLOW} / c redo value 3 / "
        f"{NARROW_FLOW} / " + CROSSED.replace("a 3 4 3", "a 3 4 1"),
    ),
    held(
        "each change is tried on what was solved: it is undone with its own solve, and redone "
        "without it",
        CROSSED,
        "solve / cap 4 1 / solve / undo 2 / cap 2 1 / cap 2 2 / solve / undo 3 / redo / solve",
        f"{CROSSED_FLOW} / c cap value 4 / s 4 / f 1 2 2 / f 1 3 2 / f 2 3 1 / f 2 4 1 / f 3 4 3 / "
        "c undo value 5 / "
        f"c cap value 4 / c cap value 4 / {CROSSED_FLOW} / c undo value 5 / c redo value 4 / "
        "s 4 / f 1 2 3 / f 1 3 1 / f 2 3 1 / f 2 4 2 / f 3 4 2",
    ),
    held(
        "arcs that are not there, and a number with a sign",
        CROSSED,
        "closed 1 / cap 9 1 / cap 1 -1 / cap 0 1 / cap 6 1 / close 0 / close 6 / close 4294967297 "
        "/ cap 5 1 / close 5",
        "c refused 1 unknown command / c refused 2 no such arc / c refused 3 not a number / c "
        "refused 4 no such arc / "
        "c refused 5 no such arc / c refused 6 no such arc / c refused 7 no such arc / c refused 8 "
        "no such arc / "
        "c cap value 0 / c close value 0",
    ),
    held(
        "a closed arc keeps its number, is left out of what is written, and is opened by undo "
        "alone",
        CROSSED,
        "close 1 / print problem / print flow / add 1 2 9 / cap 6 4 / cap 1 4 / print problem / "
        "solve / undo 4 / cap 1 4",
        "c close value 0 / p max 4 4 / n 1 s / n 4 t / a 1 3 2 / a 2 3 5 / a 2 4 2 / a 3 4 3 / "
        "s 0 / f 1 3 0 / f 2 3 0 / f 2 4 0 / f 3 4 0 / c add 6 value 0 / c cap value 0 / c refused "
        "6 arc is closed / "
        "p max 4 5 / n 1 s / n 4 t / a 1 3 2 / a 2 3 5 / a 2 4 2 / a 3 4 3 / a 1 2 4 / "
        "s 5 / f 1 3 2 / f 2 3 1 / f 2 4 2 / f 3 4 3 / f 1 2 3 / c undo value 0 / c cap value 0",
    ),
    held(
        "the largest sum of capacities, and one more",
        CROSSED,
        "cap 1 18446744073709551603 / cap 1 18446744073709551604 / cap 2 3 / cap 2 2 / solve / cap "
        "3 18446744073709551615",
        "c cap value 0 / c refused 2 capacities past 64 bits / c refused 3 capacities past 64 bits "
        "/ c cap value 0 / "
        f"{CROSSED_FLOW} / c refused 6 capacities past 64 bits",
    ),
    held(
        "a change that alters nothing is a change",
        CROSSED,
        "solve / cap 1 3 / undo / undo / undo",
        f"{CROSSED_FLOW} / c cap value 5 / c undo value 5 / c undo value 0 / c refused 5 nothing "
        "to undo",
    ),
    held(
        "many changes that alter nothing",
        CROSSED,
        "cap 1 3 / " * 200 + "undo 200 / undo / redo 200 / redo",
        "c cap value 0 / " * 200
        + "c undo value 0 / c refused 202 nothing to undo / c redo value 0 / c refused 204 "
        "nothing to redo",
    ),
    held(
        "a refused change is no state",
        CROSSED,
        "add 1 5 1 / add 1 4 18446744073709551615 / undo / redo",
        "c refused 1 no such node / c refused 2 capacities past 64 bits / c refused 3 nothing to "
        "undo / c refused 4 nothing to redo",
    ),
    held(
        "refused changes stand between others, which are undone together",
        CROSSED,
        "solve / cap 5 1 / close 1 / close 1 / cap 1 1 / cap 6 1 / close 0 / cap 2 "
        "18446744073709551615 / undo 2 / redo 1 / redo 2 / "
        "print problem",
        f"{CROSSED_FLOW} / c cap value 3 / c close value 0 / c refused 4 arc is closed / c refused "
        "5 arc is closed / "
        "c refused 6 no such arc / c refused 7 no such arc / c refused 8 capacities past 64 bits / "
        "c undo value 5 / c redo value 3 / "
        f"c refused 11 nothing to redo / {CROSSED.replace('a 3 4 3', 'a 3 4 1')}",
    ),
    held(
        "a node that is shut twice",
        CROSSED,
        "solve / shut 3 / shut 0 / shut 5 / shut 3 / close 5 / undo 2 / redo 1 / redo 2 / print "
        "problem",
        f"{CROSSED_FLOW} / c shut value 2 / c refused 3 no such node / c refused 4 no such node / "
        "c "
        "shut value 2 / "
        "c refused 6 arc is closed / c undo value 5 / c redo value 2 / c refused 9 nothing to redo "
        "/ "
        "p max 4 2 / n 1 s / n 4 t / a 1 2 3 / a 2 4 2",
    ),
    held(
        "too few fields, too many, no steps, what is not printed, and a last line without an end",
        CROSSED,
        b"print\r\nprint side\r\nundo 1 1\nundo 0\n\tredo  0 \nundo 18446744073709551616\nundo "
        b"-1\nredo",
        "c refused 1 wrong number of fields / c refused 2 unknown command / c refused 3 wrong "
        "number of fields / "
        "c undo value 0 / c redo value 0 / c refused 6 number too large / c refused 7 not a number "
        "/ c refused 8 nothing to redo",
    ),
    held(
        "the rest of a long line is skipped",
        CROSSED,
        b"x" * 4097 + b"\nprint flow\n" + b"x" * 9000,
        f"c refused 1 line too long / {NO_FLOW} / c refused 3 line too long",
    ),
    held(
        "a cut is told of the state that undo and redo lead to",
        CROSSED,
        "solve / print cut / undo / print cut / redo / print cut / add 1 4 1 / print cut",
        f"{CROSSED_FLOW} / {CROSSED_CUT} / c undo value 0 / c refused 4 flow is not greatest / c "
        f"redo value 5 / {CROSSED_CUT} / "
        "c add 6 value 5 / c refused 8 flow is not greatest",
    ),
    held(
        "a cut without arcs, and a field too many",
        NO_ARCS,
        "print cut / print cut 1 / print cuts",
        "c cut 0 / c side 1 / c refused 2 wrong number of fields / c refused 3 unknown command",
    ),
    held(
        "no cut is told after a solve where none is wanted",
        LARGEST,
        "solve / print cut",
        f"{LARGEST_FLOW} / c cut 18446744073709551615 / c side 1",
    ),
    held(
        "a printed flow has no cut after it",
        CROSSED,
        "solve / print flow / undo / redo / print cut",
        f"{CROSSED_FLOW} / {CROSSED_CUT} / {CROSSED_FLOW} / c undo value 0 / c redo value 5 / "
        f"{CROSSED_CUT}",
        CUT,
    ),
    held(
        "the cut is that of the network with the arcs that were added",
        NO_ARCS,
        "solve / add 1 2 7 / print cut / solve",
        "s 0 / c cut 0 / c side 1 / c add 1 value 0 / c refused 3 flow is not greatest / s 7 / f 1 "
        "2 7 / c cut 7 / c side 1",
        CUT,
    ),
    held(
        "command lines that are refused for what stands in them, and change nothing",
        CROSSED,
        b"\n".join([*REFUSED_LINES, b"print problem", b"undo"]),
        " / ".join(
            f"c refused {line} {told}" for line, told in enumerate(REFUSED_LINES.values(), 1)
        )
        + f" / {CROSSED} / c refused 47 nothing to undo",
    ),
    held(
        "the largest capacity, with and without leading zeros, spaces and tabs",
        NINE,
        "cap 9 18446744073709551615 / print problem / undo /  cap\t09 18446744073709551615 / print "
        "problem",
        f"c cap value 0 / {NINTH_LARGEST} / c undo value 0 / c cap value 0 / {NINTH_LARGEST}",
    ),
    held(
        "each other command, with and without leading zeros, spaces and tabs",
        CROSSED,
        "add 1 4 7 / \tadd  01 4   7  / print problem / close 3 / close  0\t / shut 3 /  shut\t00  "
        "/ shut 18446744073709551615 / "
        "print problem / solve /  solve\t / print flow /  print\tcut  / print cut / undo 0 / undo "
        "/ "
        "undo 3 / print problem / "
        "redo / redo 18446744073709551615 / print problem",
        f"c add 6 value 0 / c add 7 value 0 / {ADDED} / c close value 0 / c refused 5 no such arc "
        "/ "
        "c shut value 0 / "
        f"c refused 7 no such node / c refused 8 no such node / {OPEN} / {OPEN_FLOW} / {OPEN_FLOW} "
        f"/ {OPEN_FLOW} / "
        f"{OPEN_CUT} / {OPEN_CUT} / c undo value 16 / c undo value 16 / c undo value 0 / {ADDED} / "
        "c redo value 0 / "
        "c refused 20 nothing to redo / p max 4 6 / n 1 s / n 4 t / a 1 2 3 / a 1 3 2 / a 2 4 2 / "
        "a 3 4 3 / a 1 4 7 / a 1 4 7",
    ),
    held(
        "blank lines and comments have no reply, and count",
        CROSSED,
        b"add 1 4 7\n\n \t \nc\nc undo\n\tc undo\nundo\nundo",
        "c add 6 value 0 / c undo value 0 / c refused 8 nothing to undo",
    ),
]
# Problems with their faults, which a solve and a session tell alike.
PROBLEMS = {
    LARGEST.replace("2 1 /", "2 2 /", 1) + " / a 1 2 1": "line 5: capacities past 64 bits",
    CROSSED.removesuffix(" / a 3 4 3"): "line 8: too few arcs",
    CROSSED.replace("a 1 2 3", "a 1 2 0 3 5"): "line 4: wrong number of fields",
    "": "line 1: problem line expected",
    "c / p max 2 1 / n 1 s / n 1 t": "line 4: source and sink are the same",
}
# How many bytes of a problem, with the fault in them.
FRONTS = {
    0: "line 1: problem line expected",
    1: "line 1: wrong number of fields",
    8: "line 1: wrong number of fields",
    9: "line 2: source or sink missing",
    54: "line 8: too few arcs",
    60: "line 8: wrong number of fields",
}
FAULTS = [
    *(
        faulty(problem, told, command)
        for problem, told in PROBLEMS.items()
        for command in (b"solve", b"session")
    ),
    *(faulty(text(CROSSED)[:count], told) for count, told in FRONTS.items()),
]
ONCE = SOLVES + SESSIONS + CHECKS + FAULTS + WRONG
