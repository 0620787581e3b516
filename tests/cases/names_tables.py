"""Tables that tools/dmf-names writes of answers, worked out by hand. Between lines is a slash."""

from __future__ import annotations

from names_rows import ANSWER, ANSWER_7, COMMANDS, CUT, LOST, REPLIES, ROADS
from tool_runs import Text

TITLES = ["number", "name", "from", "to", "flow", "capacity", "full", "in cut"]
MILL, HILL, OLD = (
    (1, "Mill Lane", "Quarry", "Hill"),
    (2, "", "Hill", "Site"),
    (3, "Old Road", "Quarry", "Site"),
)
TABLES: list[tuple[str, tuple[Text, Text | None, Text], list[tuple[object, ...]]]] = [
    (
        "a solution and its cut",
        (ROADS, None, f"{ANSWER} / {CUT}"),
        [(*MILL, 4, 5, "no", "no"), (*HILL, 4, 4, "yes", "yes"), (*OLD, 2, 2, "yes", "yes")],
    ),
    (
        "a solution",
        (ROADS, None, ANSWER),
        [(*MILL, 4, 5, "no", ""), (*HILL, 4, 4, "yes", ""), (*OLD, 2, 2, "yes", "")],
    ),
    (
        "the last solution of a session, with the network as it was then",
        (ROADS, COMMANDS, REPLIES),
        [(*OLD, 2, 2, "yes", "yes"), (4, "", "Quarry", "Site", 7, 7, "yes", "yes")],
    ),
    (
        "the last solution before a change that is not known",
        (ROADS, None, f"{ANSWER} / {CUT} / c undo value 0"),
        [(*MILL, 4, 5, "no", "no"), (*HILL, 4, 4, "yes", "yes"), (*OLD, 2, 2, "yes", "yes")],
    ),
    (
        "a cut of another state",
        (
            ROADS,
            "solve / print cut / cap 2 9 / solve",
            f"{ANSWER} / {CUT} / c cap value 6 / s 7 / {ANSWER_7}",
        ),
        [(*MILL, 5, 5, "yes", ""), (*HILL, 5, 9, "no", ""), (*OLD, 2, 2, "yes", "")],
    ),
    (
        "names with commas, quotation marks and ends of lines",
        (
            b'c node 1 a, "b"\nc arc 1 x\ry\np max 2 1\nn 1 s\nn 2 t\na 1 2 5\n',
            None,
            "s 5 / f 1 2 5",
        ),
        [(1, "x\\x0dy", 'a, "b"', "2", 5, 5, "yes", "")],
    ),
]
NO_TABLES: list[tuple[Text, Text | None, Text, str]] = [
    (ROADS, None, CUT, "the answer ends without a solution and its flows"),
    (ROADS, None, f"{ANSWER} / s 6", "the answer ends without a solution and its flows"),
    (
        ROADS,
        None,
        f"{ANSWER} / {LOST}",
        "the arcs of the last solution are not known; give the commands with --commands FILE",
    ),
    (
        ROADS,
        None,
        "c close value 2 / p max 3 1 / n 1 s / n 3 t / a 1 3 2 / s 2 / f 1 3 2",
        "the arcs of the last solution are not known; give the commands with --commands FILE",
    ),
]
