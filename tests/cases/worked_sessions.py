"""Sessions that were worked out by hand: their commands and their replies."""

from worked_forms import (
    BRIEF,
    CROSSED,
    CROSSED_CUT,
    CROSSED_FLOW,
    CUT,
    JOINED,
    LARGEST,
    LOOSE,
    LOOSE_FLOW,
    NARROW_CUT,
    NARROW_FLOW,
    NO_FLOW,
    PARALLEL,
    PARALLEL_FLOW,
    SECOND_WAY,
    held,
)

SESSIONS = [
    held(
        "a capacity is lowered below the flow",
        CROSSED,
        "solve / cap 5 1 / print flow",
        f"{CROSSED_FLOW} / c cap value 3 / {NARROW_FLOW}",
    ),
    held(
        "the cut after a capacity was lowered",
        CROSSED,
        "solve / cap 5 1 / solve / print cut",
        f"{CROSSED_FLOW} / c cap value 3 / {NARROW_FLOW} / {NARROW_CUT}",
    ),
    held(
        "each solve with its cut",
        CROSSED,
        "solve / cap 5 1 / solve",
        f"{CROSSED_FLOW} / {CROSSED_CUT} / c cap value 3 / {NARROW_FLOW} / {NARROW_CUT}",
        CUT,
    ),
    held(
        "an arc that carries flow is closed",
        CROSSED,
        "solve / close 1 / print flow",
        f"{CROSSED_FLOW} / c close value 2 / s 2 / f 1 3 2 / f 2 3 0 / f 2 4 0 / f 3 4 2",
    ),
    held(
        "closing is undone, and the flow is back",
        CROSSED,
        "solve / close 1 / print flow / undo / print flow",
        f"{CROSSED_FLOW} / c close value 2 / s 2 / f 1 3 2 / f 2 3 0 / f 2 4 0 / f 3 4 2 / c undo "
        f"value 5 / {CROSSED_FLOW}",
    ),
    held(
        "a node is shut, and undo gives back the flow",
        CROSSED,
        "solve / shut 2 / print flow / undo / print flow",
        f"{CROSSED_FLOW} / c shut value 2 / s 2 / f 1 3 2 / f 3 4 2 / c undo value 5 / "
        f"{CROSSED_FLOW}",
    ),
    held(
        "closing one arc of a node leaves less to take off the next",
        CROSSED,
        "solve / shut 3 / print flow",
        f"{CROSSED_FLOW} / c shut value 2 / s 2 / f 1 2 2 / f 2 4 2",
    ),
    held(
        "all arcs at a node are one change, and a node without open arcs is shut too",
        CROSSED,
        "shut 5 / shut 0 / shut / shut 2 / shut 2 / undo 2 / print problem",
        "c refused 1 no such node / c refused 2 no such node / c refused 3 wrong number of fields "
        "/ "
        "c shut value 0 / "
        f"c shut value 0 / c undo value 0 / {CROSSED}",
    ),
    held(
        "a node with parallel arcs and an arc that comes back is shut, and shut again with another "
        "arc",
        PARALLEL,
        "solve / shut 2 / print flow / undo / print flow / redo / "
        "add 2 4 1 / shut 2 / print problem / undo 3 / print problem / redo 4 / redo 3",
        f"{PARALLEL_FLOW} / c shut value 2 / s 2 / f 1 3 2 / f 3 4 2 / c undo value 5 / "
        f"{PARALLEL_FLOW} / c redo value 2 / "
        "c add 7 value 2 / c shut value 2 / p max 4 2 / n 1 s / n 4 t / a 1 3 2 / a 3 4 2 / c undo "
        "value 5 / "
        f"{PARALLEL} / c refused 12 nothing to redo / c redo value 2",
    ),
    held(
        "the source is shut",
        CROSSED,
        "solve / shut 1 / print flow / print cut / undo 1 / shut 1 / redo",
        f"{CROSSED_FLOW} / c shut value 0 / s 0 / f 2 3 0 / f 2 4 0 / f 3 4 0 / c cut 0 / c side 1 "
        "/ c undo value 5 / "
        "c shut value 0 / c refused 7 nothing to redo",
    ),
    held(
        "the sink is shut, and nothing can be sent any more",
        CROSSED,
        "solve / shut 4 / print problem / solve / close 4 / cap 5 1",
        f"{CROSSED_FLOW} / c shut value 0 / p max 4 3 / n 1 s / n 4 t / a 1 2 3 / a 1 3 2 / a 2 3 "
        "5 "
        "/ "
        "s 0 / f 1 2 0 / f 1 3 0 / f 2 3 0 / c refused 5 arc is closed / c refused 6 arc is closed",
    ),
    held(
        "every arc is at the node that is shut",
        LOOSE,
        "solve / shut 2 / print problem / print flow / undo / print flow",
        f"{LOOSE_FLOW} / c shut value 0 / p max 3 0 / n 1 s / n 3 t / s 0 / c undo value 9 / "
        f"{LOOSE_FLOW}",
    ),
    held(
        "lines for a node to be shut that are refused",
        CROSSED,
        "shut 1 1 / shut x x / shut x / shut -1 / shut 18446744073709551616 / shut "
        "18446744073709551615 / shut 4294967297 / "
        "Shut 1 / shutter 1",
        "c refused 1 wrong number of fields / c refused 2 wrong number of fields / c refused 3 not "
        "a number / "
        "c refused 4 not a number / c refused 5 number too large / c refused 6 no such node / c "
        "refused 7 no such node / "
        "c refused 8 unknown command / c refused 9 unknown command",
    ),
    held(
        "a solve of a greatest flow is a change",
        CROSSED,
        "solve / solve / undo / print flow",
        f"{CROSSED_FLOW} / {CROSSED_FLOW} / c undo value 5 / {CROSSED_FLOW}",
    ),
    held(
        "undo gives back the flow, and does not solve again",
        JOINED,
        "cap 1 0 / solve / cap 1 1 / cap 2 0 / undo / print flow",
        f"c cap value 0 / {SECOND_WAY} / c cap value 1 / c cap value 0 / c undo value 1 / "
        f"{SECOND_WAY}",
    ),
    held(
        "a change ends what can be made again",
        CROSSED,
        "cap 1 4 / undo / add 1 4 7 / redo",
        "c cap value 0 / c undo value 0 / c add 6 value 0 / c refused 4 nothing to redo",
    ),
    held(
        "all steps are taken back, or none",
        CROSSED,
        "cap 1 4 / close 2 / undo 3 / undo 2 / print problem",
        "c cap value 0 / c close value 0 / c refused 3 nothing to undo / c undo value 0 / "
        f"{CROSSED}",
    ),
    held(
        "no capacity is left to add",
        LARGEST,
        "add 1 2 1 / add 1 2 0",
        "c refused 1 capacities past 64 bits / c add 2 value 0",
    ),
    held(
        "lines that are refused",
        CROSSED,
        "print cut / closed 1 / cap 9 1 / cap 1 -1",
        "c refused 1 flow is not greatest / c refused 2 unknown command / c refused 3 no such arc "
        "/ c refused 4 not a number",
    ),
    held(
        "a solve is undone and made again",
        CROSSED,
        "solve / undo / print flow / redo 1 / undo 0",
        f"{CROSSED_FLOW} / c undo value 0 / {NO_FLOW} / c redo value 5 / c undo value 5",
    ),
    held(
        "a closed arc, and lines of a wrong form",
        CROSSED,
        "close 1 / close 1 / cap 1 5 / add 1 5 1 / cap 2 18446744073709551616 / print / print side "
        "/ undo 1 1 / undo",
        "c close value 0 / c refused 2 arc is closed / c refused 3 arc is closed / c refused 4 no "
        "such node / "
        "c refused 5 number too large / c refused 6 wrong number of fields / c refused 7 unknown "
        "command / "
        "c refused 8 wrong number of fields / c undo value 0",
    ),
    held("no command", CROSSED, "", ""),
    held(
        "a comment and a blank line", CROSSED, b"c hello\n\ncNote\n", "c refused 3 unknown command"
    ),
    held(
        "too long a line",
        CROSSED,
        f"{'x' * 4097} / print flow",
        f"c refused 1 line too long / {NO_FLOW}",
    ),
    held(
        "words in capitals",
        CROSSED,
        "UNDO / Print flow / print Flow",
        "c refused 1 unknown command / c refused 2 unknown command / c refused 3 unknown command",
    ),
    # Without a line feed at its end.
    held(
        "the last line as long as may be",
        CROSSED,
        b"undo".ljust(4096),
        "c refused 1 nothing to undo",
    ),
    held("too long a last line", CROSSED, b"undo".ljust(4097), "c refused 1 line too long"),
    held(
        "a last line too long by its carriage return",
        CROSSED,
        b"undo".ljust(4096) + b"\r",
        "c refused 1 line too long",
    ),
    held(
        "lines of the greatest length and longer ones",
        CROSSED,
        f"{'x' * 4096} / {'x' * 4097} / {'x' * 4095}\r / {'x' * 4096}\r / c{' ' * 4096}",
        "c refused 1 unknown command / c refused 2 line too long / c refused 3 unknown command / c "
        "refused 4 line too long / "
        "c refused 5 line too long",
    ),
    held(
        "an added arc is taken back",
        CROSSED,
        "add 1 4 7 / undo / print problem",
        f"c add 6 value 0 / c undo value 0 / {CROSSED}",
    ),
    held(
        "arcs that cannot be added, and one that can",
        CROSSED,
        "undo / add 1 5 1 / add 1 1 18446744073709551601 / add 1 1 18446744073709551600 / add 1 1 "
        "/ add x 1 1 / solve",
        "c refused 1 nothing to undo / c refused 2 no such node / c refused 3 capacities past 64 "
        "bits / c add 6 value 0 / "
        f"c refused 5 wrong number of fields / c refused 6 not a number / {CROSSED_FLOW} / f 1 1 0",
    ),
    held(
        "a loose text is written plainly",
        LOOSE,
        "print problem",
        "p max 3 5 / n 1 s / n 3 t / a 1 2 4 / a 2 2 9 / a 1 2 7 / a 2 1 6 / a 2 3 9",
    ),
    held(
        "closing makes room for another capacity",
        LARGEST,
        "cap 1 18446744073709551614 / cap 1 18446744073709551615 / close 1 / add 1 2 1 / print "
        "problem",
        "c cap value 0 / c cap value 0 / c close value 0 / c add 2 value 0 / p max 2 1 / n 1 s / n "
        "2 t / a 1 2 1",
    ),
    held(
        "several steps back and forward",
        CROSSED,
        "add 1 4 1 / add 1 4 2 / undo 2 / redo 3 / redo 2 / print problem",
        "c add 6 value 0 / c add 7 value 0 / c undo value 0 / c refused 4 nothing to redo / c redo "
        "value 0 / " + CROSSED.replace("4 5 /", "4 7 /", 1) + " / a 1 4 1 / a 1 4 2",
    ),
    held(
        "a change ends all that can be made again",
        CROSSED,
        "add 1 4 1 / add 1 4 2 / undo 2 / cap 1 4 / redo / undo / redo / print problem",
        "c add 6 value 0 / c add 7 value 0 / c undo value 0 / c cap value 0 / c refused 5 nothing "
        "to redo / c undo value 0 / "
        f"c redo value 0 / {CROSSED.replace('a 1 2 3', 'a 1 2 4')}",
    ),
    held(
        "an arc is drained, closed, and opened again by undo",
        CROSSED,
        "solve / cap 5 1 / close 1 / print flow / undo 2 / print problem",
        f"{CROSSED_FLOW} / c cap value 3 / c close value 0 / s 0 / f 1 3 0 / f 2 3 0 / f 2 4 0 / f "
        "3 4 0 / c undo value 5 / " + CROSSED,
    ),
    held(
        "flow that goes round a cycle is drained, and no value is lost",
        "p max 4 4 / n 1 s / n 4 t / a 3 2 1 / a 1 2 1 / a 2 3 1 / a 3 4 1",
        "solve / add 1 3 1 / add 2 4 1 / solve / close 3 / print flow",
        "s 1 / f 3 2 0 / f 1 2 1 / f 2 3 1 / f 3 4 1 / c add 5 value 1 / c add 6 value 1 / "
        "s 2 / f 3 2 1 / f 1 2 1 / f 2 3 1 / f 3 4 1 / f 1 3 1 / f 2 4 1 / c close value 2 / "
        "s 2 / f 3 2 0 / f 1 2 1 / f 3 4 1 / f 1 3 1 / f 2 4 1",
    ),
    held(
        "a capacity past 64 bits in all",
        CROSSED,
        "close 2 / cap 2 1 / cap 1 18446744073709551605 / cap 1 18446744073709551606",
        "c close value 0 / c refused 2 arc is closed / c cap value 0 / c refused 4 capacities past "
        "64 bits",
    ),
    held(
        "both arcs out of the source are closed",
        CROSSED,
        "close 1 / close 2 / print cut",
        "c close value 0 / c close value 0 / c cut 0 / c side 1",
    ),
    held(
        "the last line has no end",
        CROSSED,
        b"add 1 4 7\nund",
        "c add 6 value 0 / c refused 2 unknown command",
    ),
    held(
        "comments and blank lines between changes, which have no replies",
        CROSSED,
        b"add 1 4 7\nc a comment\n\nsolve\ncap 1 9\nclose 6\nclosed 6\nundo",
        f"c add 6 value 0 / s 12 / {CROSSED_FLOW.removeprefix('s 5 / ')} / f 1 4 7 / c cap value "
        "12 "
        "/ c close value 5 / "
        "c refused 7 unknown command / c undo value 12",
    ),
    held(
        "each kind of reply in turn",
        CROSSED,
        b"add 1 4 7\nc\nundo\n\nprint problem\nsolve\ncap 5 1\nclose 1\nclose 1\nprint flow\nundo",
        f"c add 6 value 0 / c undo value 0 / {CROSSED} / {CROSSED_FLOW} / c cap value 3 / c close "
        "value 0 / "
        "c refused 9 arc is closed / s 0 / f 1 3 0 / f 2 3 0 / f 2 4 0 / f 3 4 0 / c undo value 3",
    ),
    held(
        "draining, undoing, closing and solving in turn",
        CROSSED,
        "solve / cap 5 1 / add 1 4 7 / undo 2 / redo 2 / close 1 / print cut / solve / print flow",
        f"{CROSSED_FLOW} / {CROSSED_CUT} / c cap value 3 / c add 6 value 3 / c undo value 5 / c "
        "redo value 3 / "
        "c close value 0 / c refused 7 flow is not greatest / "
        "s 8 / f 1 3 1 / f 2 3 0 / f 2 4 0 / f 3 4 1 / f 1 4 7 / c cut 8 / c side 1 / c side 3 / "
        "s 8 / f 1 3 1 / f 2 3 0 / f 2 4 0 / f 3 4 1 / f 1 4 7",
        CUT,
    ),
]
BRIEF_SESSIONS = [
    held(
        "brief replies to solves, and the flow where it is printed",
        CROSSED,
        "solve / print flow / cap 5 1 / solve / add 1 4 7 / solve / print cut / undo 2 / print "
        "flow",
        f"c solve value 5 / {CROSSED_FLOW} / c cap value 3 / c solve value 3 / c add 6 value 3 / c "
        "solve value 10 / c cut 10 / c side 1 / "
        f"c side 2 / c side 3 / c undo value 3 / {NARROW_FLOW}",
        BRIEF,
    ),
    held(
        "each brief reply with its cut",
        CROSSED,
        "solve / cap 5 1 / solve / solve 1 / print flow",
        f"c solve value 5 / {CROSSED_CUT} / c cap value 3 / c solve value 3 / {NARROW_CUT} / c "
        f"refused 4 wrong number of fields / {NARROW_FLOW}",
        CUT,
        BRIEF,
    ),
]

HISTORIES = [
    held(
        "one state is kept",
        CROSSED,
        "cap 1 4 / close 2 / undo 2 / undo / redo / print problem",
        "c cap value 0 / c close value 0 / c refused 3 nothing to undo / c undo value 0 / c redo "
        "value 0"
        " / p max 4 4 / n 1 s / n 4 t / a 1 2 4 / a 2 3 5 / a 2 4 2 / a 3 4 3",
        b"--history",
        b"1",
    ),
    held(
        "no state is kept",
        CROSSED,
        "solve / undo / print flow",
        f"{CROSSED_FLOW} / c refused 2 nothing to undo / {CROSSED_FLOW}",
        b"--history",
        b"0",
    ),
    held(
        "two states are kept, and a change drops what was undone",
        CROSSED,
        "cap 1 4 / cap 1 5 / cap 1 6 / undo 2 / undo / cap 1 7 / cap 1 8 / undo 3 / undo 2 / redo "
        "2 / redo",
        "c cap value 0 / c cap value 0 / c cap value 0 / c undo value 0 / c refused 5 nothing to "
        "undo / c cap value 0 / c cap value 0"
        " / c refused 8 nothing to undo / c undo value 0 / c redo value 0 / c refused 11 nothing "
        "to redo",
        b"--history",
        b"2",
    ),
]
