"""What tools/dmf-names says of answers that do not fit the problem or the commands, worked out by
hand. Between lines stands a slash."""

from __future__ import annotations

from names_rows import ANSWER, ANSWER_7, CUT, LIMIT, ROADS, TOLD
from tool_runs import Text

# What is said of an answer that does not fit the problem or the commands, and the lines of it that
# are told before that.
FAULTS: list[tuple[Text, Text | None, Text, str]] = [
    (
        ROADS,
        None,
        ANSWER.replace("f 2 3 4", "f 2 3 150"),
        "line 3 of the answer: over capacity: arc 2, from 2 to 3, carries at most 4, not 150",
    ),
    (ROADS, None, ANSWER.replace("f 2 3", "f 3 2"), "line 3 of the answer: no such arc: 3 to 2"),
    (
        ROADS,
        None,
        "s 6 / f 1 3 2",
        "line 2 of the answer: arc 1 leads from 1 to 2, not from 1 to 3",
    ),
    (
        ROADS,
        None,
        "s 6 / f 1 2 4 / f 2 3 4",
        "line 4 of the answer: the solution has 2 flows, and the network 3 arcs",
    ),
    (
        ROADS,
        None,
        f"s 6 / f 1 2 4 / {CUT}",
        "line 3 of the answer: the solution has 1 flows, and the network 3 arcs",
    ),
    (
        ROADS,
        None,
        ANSWER.replace("f 1 2 4", "f 1 2 5"),
        "line 4 of the answer: flow not conserved at node 2",
    ),
    (
        ROADS,
        None,
        ANSWER.replace("s 6", "s 5"),
        "line 4 of the answer: value differs: 6 flows out of the source, not 5",
    ),
    (ROADS, None, "s 6 / f 1 2 x", "line 2 of the answer: not a number"),
    (ROADS, None, "s 6 / f 1 2 ²", "line 2 of the answer: not a number"),
    (ROADS, None, "s 6 / f 1 2 " + "9" * 5000, "line 2 of the answer: number too large"),
    (ROADS, None, "s 18446744073709551616", "line 1 of the answer: number too large"),
    (ROADS, None, "s 6 / f 1 2", "line 2 of the answer: wrong number of fields"),
    (ROADS, None, "s 6 6", "line 1 of the answer: wrong number of fields"),
    (
        ROADS,
        None,
        "f 1 2 4",
        "line 1 of the answer: a flow before its value line, or more flows than the network has "
        "arcs",
    ),
    (
        ROADS,
        None,
        "c side 1",
        "line 1 of the answer: a side line before its cut, or more of them than the cut has",
    ),
    (ROADS, None, "a 1 2 3", "line 1 of the answer: unknown line: a"),
    (
        ROADS,
        None,
        "c cut 8 / c side 1 / c side 2",
        "line 1 of the answer: the arcs of this cut carry 6, not 8",
    ),
    (
        ROADS,
        None,
        "c cut 6 / c side 2",
        "line 1 of the answer: the side of this cut lacks the source or contains the sink",
    ),
    (ROADS, None, "c cut 5 / c side 4", "line 2 of the answer: no such node: 4"),
    (
        ROADS,
        None,
        "c cut 5 / c side 1 / c side 1",
        "line 3 of the answer: node 1 is on the side twice",
    ),
    (ROADS, None, "c cut x", "line 1 of the answer: not a number"),
    (
        ROADS,
        None,
        "p max 3 1 / n 1 s / n 3 t / a 1 2 5",
        "line 1 of the answer: this is a problem with other arcs",
    ),
    (
        ROADS,
        None,
        "p max 4 0 / n 1 s / n 3 t",
        "line 1 of the answer: this is a problem with other nodes",
    ),
    (
        ROADS,
        None,
        "p max 3 1 / n 1 s / a 1 2 5 / n 3 t",
        "line 3 of the answer: arc before source and sink",
    ),
    (ROADS, None, "p max 3 3 / n 1 s / s 6", "line 3 of the answer: source or sink missing"),
    (
        ROADS,
        "close 1",
        "c cap value 0",
        "line 1 of the answer: this does not answer `close 1`, line 1 of the commands",
    ),
    (
        ROADS,
        "c / close 9",
        "c close value 0",
        "line 1 of the answer: this does not answer `close 9`, line 2 of the commands: no such arc",
    ),
    (
        ROADS,
        "wash",
        "c close value 0",
        "line 1 of the answer: this does not answer `wash`, line 1 of the commands",
    ),
    (
        ROADS,
        "close 9",
        "c refused 2 no such arc",
        "line 1 of the answer: this does not answer `close 9`, line 1 of the commands",
    ),
    (
        ROADS,
        "close 1",
        "c refused 1 no such arc",
        "line 1 of the answer: this does not answer `close 1`, line 1 of the commands",
    ),
    (
        ROADS,
        "cap 1 7",
        "c cap value 3",
        "line 1 of the answer: value differs: cap 1 7 does not make 3 of 0",
    ),
    (ROADS, "add 1 3 7", "c add 5 value 0", "line 1 of the answer: the added arc has the number 4"),
    (
        ROADS,
        "undo",
        "c undo value 0",
        "line 1 of the answer: this does not answer `undo`, line 1 of the commands: nothing to "
        "undo",
    ),
    (
        ROADS,
        "",
        "c undo value 0",
        "line 1 of the answer: no command is left that this could answer",
    ),
    (ROADS, "solve / c done / undo", "", "line 1 of the commands: no reply to `solve`"),
    (ROADS, None, "solve / ", "line 1 of the answer: no reply to `solve`"),
    (
        ROADS,
        None,
        "solve / c undo value 0",
        "line 2 of the answer: this does not answer `solve`, line 1 of the answer",
    ),
    (
        ROADS,
        "solve",
        "s 7 / " + ANSWER_7,
        "line 3 of the answer: over capacity: arc 2, from 2 to 3, carries at most 4, not 5",
    ),
    ("p max 2 1 / a 1 2", None, "", "line 2 of the problem: arc before source and sink"),
    ("p max 2 1 / n 1 s / n 2 t / a 1 2 ²", None, "", "line 4 of the problem: not a number"),
    (
        b"p max 2 1\nn 1 s\nn 2 t\na 1 2 " + b"9" * 200_000,
        None,
        "",
        "line 4 of the problem: number too large",
    ),
]
# The same, of answers that fit at first: what is told before the fault.
LATER = [
    (
        "solve / cap 2 4 / solve / undo",
        f"{ANSWER} / {CUT} / c cap value 6 / {ANSWER} / c undo value 6",
        f"{TOLD} / {LIMIT} / c cap value 6 / {TOLD}",
        "line 13 of the answer: the cut of this solve is missing",
    ),
    (
        "solve / cap 2 4 / solve",
        f"{ANSWER} / c cap value 6 / {ANSWER} / {CUT}",
        f"{TOLD} / c cap value 6 / {TOLD}",
        "line 10 of the answer: no command is left that this could answer",
    ),
    (
        "cap 1 9 / undo",
        "c cap value 0 / c undo value 3",
        "c cap value 0",
        "line 2 of the answer: value differs: it was 0 there",
    ),
    (
        "solve / print flow",
        f"{ANSWER} / {ANSWER.replace('6', '5', 1).replace('3 2', '3 1')}",
        TOLD,
        "line 8 of the answer: value differs: it is 6 here",
    ),
    (
        "solve / cap 1 4",
        f"{ANSWER} / f 1 2 4",
        TOLD,
        "line 5 of the answer: a flow before its value line, or more flows than the network has "
        "arcs",
    ),
]
