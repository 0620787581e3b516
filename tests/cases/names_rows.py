"""What tools/dmf-names prints of answers, sessions and transcripts, and what it says of those that
do not fit, worked out by hand. Between lines stands a slash."""

from __future__ import annotations

from tool_runs import Text, text

# Six lorries an hour at most: the Hill's road lets four through, and the Old Road two.
ROADS = (
    "c node 1 Quarry / c node 2 Hill / c node 3 Site / c arc 1 Mill Lane / c arc 3 Old Road"
    " / p max 3 3 / n 1 s / n 3 t / a 1 2 5 / a 2 3 4 / a 1 3 2"
)
ANSWER = "s 6 / f 1 2 4 / f 2 3 4 / f 1 3 2"
TOLD = (
    "value 6 /   1 Mill Lane, Quarry -> Hill: 4 of 5 /   2 Hill -> Site: 4 of 4 /   3 Old Road, "
    "Quarry -> Site: 2 of 2"
)
CUT = "c cut 6 / c side 1 / c side 2"
LIMIT = (
    "limit 6 /   source's side: Quarry, Hill /   2 Hill -> Site: 4 /   3 Old Road, Quarry -> Site: "
    "2"
)
# A session: command, reply, what is told of it. Arc 2 is widened; an arc is added; a node is shut.
TURNS = [
    ("solve", ANSWER, TOLD),
    ("print cut", CUT, LIMIT),
    ("cap 2 9", "c cap value 6", "c cap value 6"),
    (
        "solve",
        "s 7 / f 1 2 5 / f 2 3 5 / f 1 3 2",
        "value 7 /   1 Mill Lane, Quarry -> Hill: 5 of 5 /   2 Hill -> Site: 5 of 9 /   3 Old "
        "Road, Quarry -> Site: 2 of 2",
    ),
    (
        "print cut",
        "c cut 7 / c side 1",
        "limit 7 /   source's side: Quarry /   1 Mill Lane, Quarry -> Hill: 5 /   3 Old Road, "
        "Quarry -> Site: 2",
    ),
    ("undo 2", "c undo value 6", "c undo value 6"),
    ("print flow", ANSWER, TOLD),
    ("add 1 3 7", "c add 4 value 6", "c add 4 value 6"),
    (
        "solve",
        "s 13 / f 1 2 4 / f 2 3 4 / f 1 3 2 / f 1 3 7",
        TOLD.replace("6", "13", 1) + " /   4 Quarry -> Site: 7 of 7",
    ),
    (
        "print cut",
        "c cut 13 / c side 1 / c side 2",
        LIMIT.replace("6", "13", 1) + " /   4 Quarry -> Site: 7",
    ),
    ("close 9", "c refused 11 no such arc", "c refused 11 no such arc"),
    ("shut 2", "c shut value 9", "c shut value 9"),
    (
        "print problem",
        "p max 3 2 / n 1 s / n 3 t / a 1 3 2 / a 1 3 7",
        "c node 1 Quarry / c node 2 Hill / c node 3 Site / c arc 1 Old Road / p max 3 2 / n 1 s / "
        "n 3 t / a 1 3 2 / a 1 3 7",
    ),
    (
        "solve",
        "s 9 / f 1 3 2 / f 1 3 7",
        "value 9 /   3 Old Road, Quarry -> Site: 2 of 2 /   4 Quarry -> Site: 7 of 7",
    ),
    (
        "print cut",
        "c cut 9 / c side 1",
        "limit 9 /   source's side: Quarry /   3 Old Road, Quarry -> Site: 2 /   4 Quarry -> Site: "
        "7",
    ),
    ("undo 2", "c undo value 13", "c undo value 13"),
    ("redo", "c redo value 9", "c redo value 9"),
    ("undo 9", "c refused 18 nothing to undo", "c refused 18 nothing to undo"),
]
COMMANDS, REPLIES, SESSION_TOLD = (" / ".join(turn[at] for turn in TURNS) for at in range(3))
TRANSCRIPT = " / ".join(f"{command} / {reply}" for command, reply, _ in TURNS)
TRANSCRIPT_TOLD = " / ".join(f"{command} / {told}" for command, _, told in TURNS)
# A place with a limit: two nodes of one name, and the arc between them.
LIMITED = (
    "c inner node 4 half 2 / c inner arc 3 limit 2 / c node 1 Port / c node 2 Depot / c node 3 "
    "Shop "
    "/ c node 4 Depot / c arc 3 limit of Depot / p max 4 3 / n 1 s / n 3 t"
)
LIMITED += " / a 1 2 9 / a 4 3 7 / a 2 4 5"
ODD_NAMES = (
    b"c node 1 a\x1b[31mb\nc node 2 \xe2\x80\xaeabc\nc arc 1 x\x07\xc2\x9by\np max 2 1\nn 1 s\nn 2 "
    b"t\na 1 2 5\n"
)
FORGED = "c arc 1 Mill Lane / p max 3 2 / n 1 s / n 3 t / a 1 2 5 / a 2 3 4"
UNKNOWN = (
    "unknown commands changed the network, so capacities and the arcs of cuts are left out from "
    "here on; give the commands with --commands FILE"
)
# Of which rows this is told, and for which line.
WARNED = {
    "a session whose commands are not known": 5,
    "a printed problem makes the capacities known": 1,
    "a transcript that begins after its first command": 6,
}
LOST = "c cap value 6 / s 7 / f 1 2 5 / f 2 3 5 / f 1 3 2 / c cut 7 / c side 1"

# What is told of a problem, commands (None where none are given) and an answer.
TOLD_OF: dict[str, tuple[Text, Text | None, Text, Text]] = {
    "a solution and its cut": (ROADS, None, f"{ANSWER} / {CUT}", f"{TOLD} / {LIMIT}"),
    "a cut alone": (ROADS, None, CUT, LIMIT),
    "a solution whose flows were filtered out": (ROADS, None, f"s 6 / {CUT}", f"value 6 / {LIMIT}"),
    "lines that are no reply": (
        ROADS,
        None,
        "c a comment /  / hello / c cut the grass / c greatest 6 / c side by side",
        "c a comment /  / hello / c cut the grass / c greatest 6 / c side by side",
    ),
    "a session with its commands": (ROADS, COMMANDS, REPLIES, SESSION_TOLD),
    "a session of which each solve has its cut": (
        ROADS,
        "solve / print cut / cap 2 4 / print cut / solve",
        f"{ANSWER} / {CUT} / {CUT} / c cap value 6 / {CUT} / {ANSWER} / {CUT}",
        f"{TOLD} / {LIMIT} / {LIMIT} / c cap value 6 / {LIMIT} / {TOLD} / {LIMIT}",
    ),
    "comments, blank lines and faulty ones among the commands": (
        ROADS,
        "c solve /  / solve it / \tsolve  / print Flow / cap 1 x",
        f"c refused 3 wrong number of fields / {ANSWER} / c refused 5 unknown command / c refused "
        "6 not a number",
        f"c refused 3 wrong number of fields / {TOLD} / c refused 5 unknown command / c refused 6 "
        "not a number",
    ),
    "a session that keeps one change": (
        ROADS,
        "cap 1 9 / cap 1 8 / undo 2 / undo / add 1 3 0",
        "c cap value 0 / c cap value 0 / c refused 3 nothing to undo / c undo value 0 / c add 4 "
        "value 0",
        "c cap value 0 / c cap value 0 / c refused 3 nothing to undo / c undo value 0 / c add 4 "
        "value 0",
    ),
    "a transcript": (ROADS, None, TRANSCRIPT, TRANSCRIPT_TOLD),
    "a transcript of which commands were typed ahead, one of them no command": (
        ROADS,
        None,
        f"solve / hello / print cut / cap 2 9 / {ANSWER} / c refused 2 unknown command / {CUT} / c "
        "cap value 6",
        f"solve / hello / print cut / cap 2 9 / {TOLD} / c refused 2 unknown command / {LIMIT} / c "
        "cap value 6",
    ),
    "a session whose commands are not known": (
        ROADS,
        None,
        f"{ANSWER} / {LOST} / c close value 2",
        f"{TOLD} / c cap value 6 / value 7 /   Quarry -> Hill: 5 /   Hill -> Site: 5 /   Quarry -> "
        "Site: 2"
        " / limit 7 /   source's side: Quarry / c close value 2",
    ),
    "a transcript that begins after its first command": (
        ROADS,
        None,
        f"{ANSWER} / undo / c undo value 0 / print flow / s 0 / f 1 2 0 / f 2 3 0 / f 1 3 0",
        f"{TOLD} / undo / c undo value 0 / print flow / value 0 /   Quarry -> Hill: 0 /   Hill -> "
        "Site: 0 /   Quarry -> Site: 0",
    ),
    "a name of an arc that is not there is none of one that is added": (
        ROADS + " / c arc 4 Tunnel / c node 4 Town",
        "add 1 3 7 / solve",
        "c add 4 value 0 / s 13 / f 1 2 4 / f 2 3 4 / f 1 3 2 / f 1 3 7",
        "c add 4 value 0 / " + TOLD.replace("6", "13", 1) + " /   4 Quarry -> Site: 7 of 7",
    ),
    "a printed problem makes the capacities known": (
        ROADS,
        None,
        "c close value 2 / p max 3 1 / n 1 s / n 3 t / a 1 3 2 / s 2 / f 1 3 2 / c cut 2 / c side "
        "1",
        "c close value 2 / c node 1 Quarry / c node 2 Hill / c node 3 Site / p max 3 1 / n 1 s / n "
        "3 t / a 1 3 2 / value 2"
        " /   Quarry -> Site: 2 of 2 / limit 2 /   source's side: Quarry /   Quarry -> Site: 2",
    ),
    "a node whose name is another one's number": (
        "c node 2 1 / p max 3 2 / n 1 s / n 3 t / a 1 2 5 / a 2 3 4",
        None,
        "s 4 / f 1 2 4 / f 2 3 4 / c cut 4 / c side 1 / c side 2",
        "value 4 /   1 1 -> 1: 4 of 5 /   2 1 -> 3: 4 of 4 / limit 4 /   source's side: 1, 1 /   2 "
        "1 -> 3: 4",
    ),
    "a place with a limit": (
        LIMITED,
        None,
        "s 5 / f 1 2 5 / f 4 3 5 / f 2 4 5 / c cut 5 / c side 1 / c side 2",
        "value 5 /   1 Port -> Depot: 5 of 9 /   2 Depot -> Shop: 5 of 7 /   3 what Depot lets "
        "through: 5 of 5"
        " / limit 5 /   source's side: Port, Depot /   3 what Depot lets through: 5",
    ),
    "both nodes of a place on one side": (
        LIMITED.replace("a 4 3 7", "a 4 3 4"),
        None,
        "s 4 / f 1 2 4 / f 4 3 4 / f 2 4 4 / c cut 4 / c side 1 / c side 2 / c side 4",
        "value 4 /   1 Port -> Depot: 4 of 9 /   2 Depot -> Shop: 4 of 4 /   3 what Depot lets "
        "through: 4 of 5"
        " / limit 4 /   source's side: Port, Depot /   2 Depot -> Shop: 4",
    ),
    "names that would steer a terminal": (
        ODD_NAMES,
        None,
        b"s 5\nf 1 2 5\n\x1b]0;title\x07\xff\n",
        "value 5 /   1 x\\x07\\x9by, a\\x1b[31mb -> \\u202eabc: 5 of 5 / \\x1b]0;title\\x07\ufffd",
    ),
    "carriage returns, tabs and leading zeros": (
        ROADS.replace(" / ", "\r / "),
        text("solve\r / print cut\r"),
        b"s\t0006\r\n f 1 2  04\r\nf 2 3 4\nf 1 3 "
        + b"0" * 5000
        + b"2\r\nc cut 6\r\nc side 1\r\nc side 2\r\n",
        f"{TOLD} / {LIMIT}",
    ),
    "ten arcs, whose numbers stand below each other": (
        "p max 2 10 / n 1 s / n 2 t" + " / a 1 2 1" * 10,
        None,
        "s 10" + " / f 1 2 1" * 10,
        "value 10" + "".join(f" /   {number:>2} 1 -> 2: 1 of 1" for number in range(1, 11)),
    ),
    **{
        f"a line end that is none: {odd!r}": (
            b"c old" + odd + b"a 1 2 99\n" + text(FORGED),
            None,
            "s 4 / f 1 2 4 / f 2 3 4",
            "value 4 /   1 Mill Lane, 1 -> 2: 4 of 5 /   2 2 -> 3: 4 of 4",
        )
        for odd in (
            b"\x0c",
            b"\r",
            b"\x0b",
            b"\x1c",
            b"\x1d",
            b"\x85",
            "\x85".encode(),
            "\u2028".encode(),
            "\u2029".encode(),
        )
    },
}
ANSWER_7 = "f 1 2 5 / f 2 3 5 / f 1 3 2"
# The roads of examples/town.max, with one that is added.
TOWN_ROADS = {
    1: "Quarry -> Hill",
    2: "Quarry -> Valley",
    3: "Hill -> Bridge",
    4: "Hill -> Valley",
    5: "Valley -> Bridge",
    6: "Valley -> Tunnel",
    7: "Bridge -> Site",
    8: "Tunnel -> Site",
    9: "Hill -> Site",
}


def carrying(flows: dict[int, str]) -> str:
    """The lines of these roads, with what is printed of each."""
    return "".join(f"  {road} {TOWN_ROADS[road]}: {told}\n" for road, told in flows.items())


# Commands, the plan of today, what is told once they are changed, and the picture of that.
TOWN_CHANGES = "solve\nprint cut\ncap 6 9\nadd 2 6 3\nclose 7\nsolve\nprint cut\n"
_TODAY = {
    1: "5 of 8",
    2: "6 of 7",
    3: "5 of 5",
    4: "0 of 4",
    5: "2 of 2",
    6: "4 of 4",
    7: "7 of 9",
    8: "4 of 6",
}
_CHANGED = {
    1: "3 of 8",
    2: "6 of 7",
    3: "0 of 5",
    4: "0 of 4",
    5: "0 of 2",
    6: "6 of 9",
    8: "6 of 6",
    9: "3 of 3",
}
TOWN_PLAN = f"value 11\n{carrying(_TODAY)}"
TOWN_TOLD = f"""limit 11
  source's side: Quarry, Hill, Valley
{carrying({3: "5", 5: "2", 6: "4"})}c cap value 11
c add 9 value 11
c close value 4
value 9
{carrying(_CHANGED)}limit 9
  source's side: Quarry, Hill, Valley, Bridge, Tunnel
{carrying({8: "6", 9: "3"})}"""
_GREY = 'color="#8f8f8f", fontcolor="#8f8f8f"'
_RED = 'color="#c62828", fontcolor="#c62828"'
_SIDE = 'style="filled", fillcolor="#d3e4f5"'
TOWN_DRAWN = f"""digraph dmf {{
  rankdir=LR
  node [fontname="Helvetica"]
  edge [fontname="Helvetica", fontsize=11]
  1 [label="Quarry", peripheries=2, {_SIDE}]
  2 [label="Hill", {_SIDE}]
  3 [label="Valley", {_SIDE}]
  4 [label="Bridge", {_SIDE}]
  5 [label="Tunnel", {_SIDE}]
  6 [label="Site", peripheries=2]
  1 -> 2 [label="3/8"]
  1 -> 3 [label="6/7"]
  2 -> 4 [label="0/5", {_GREY}]
  2 -> 3 [label="0/4", {_GREY}]
  3 -> 4 [label="0/2", {_GREY}]
  3 -> 5 [label="6/9"]
  4 -> 6 [label="closed", style="dashed", {_GREY}]
  5 -> 6 [label="6/6", penwidth=2.5, {_RED}]
  2 -> 6 [label="3/3", penwidth=2.5, {_RED}]
}}
"""
