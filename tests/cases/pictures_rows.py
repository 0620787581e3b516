"""What tools/dmf-dot draws of problems, answers and sessions, and what it says of those that it
does not draw, worked out by hand."""

from __future__ import annotations

HEAD = (
    'digraph dmf {\n  rankdir=LR\n  node [fontname="Helvetica"]\n  edge [fontname="Helvetica", '
    "fontsize=11]\n"
)
SIDE = 'style="filled", fillcolor="#d3e4f5"'
CUT = 'color="#c62828", fontcolor="#c62828"'
UNUSED = 'color="#8f8f8f", fontcolor="#8f8f8f"'
TWO = "p max 2 1\nn 1 s\nn 2 t\n"
PARALLEL = "p max 3 4\nn 1 s\nn 3 t\na 1 2 2\na 1 2 3\na 2 2 9\na 2 3 4\n"
CHAIN = "p max 5 4\nn 1 s\nn 5 t\na 1 2 9\na 2 3 1\na 3 4 9\na 4 5 9\n"


def parallel(first: str, second: str) -> str:
    """What is drawn of the parallel arcs, by what is said of the first two arcs."""
    return f"""  1 [label="1", peripheries=2]
  2 [label="2"]
  3 [label="3", peripheries=2]
  1 -> 2 [{first}]
  1 -> 2 [{second}]
  2 -> 2 [label="0/9", {UNUSED}]
  2 -> 3 [label="3/4"]
"""


# What is drawn of a problem and answers: the nodes' lines and the arcs'.
DRAWN: dict[str, tuple[str, list[str], list[str], str]] = {
    "the crossing with its cut": (
        "p max 4 5\nn 1 s\nn 4 t\na 1 2 3\na 1 3 2\na 2 3 5\na 2 4 2\na 3 4 3\n",
        ["s 5\nf 1 2 3\nf 1 3 2\nf 2 3 1\nf 2 4 2\nf 3 4 3\nc cut 5\nc side 1\n"],
        [],
        f"""  1 [label="1", peripheries=2, {SIDE}]
  2 [label="2"]
  3 [label="3"]
  4 [label="4", peripheries=2]
  1 -> 2 [label="3/3", penwidth=2.5, {CUT}]
  1 -> 3 [label="2/2", penwidth=2.5, {CUT}]
  2 -> 3 [label="1/5"]
  2 -> 4 [label="2/2", penwidth=2.5]
  3 -> 4 [label="3/3", penwidth=2.5]
""",
    ),
    "a problem alone, with names": (
        'c arc 1 a "wide" pipe\n'
        + TWO
        + "c node 1  the lake \r\ncnode 2 x\nc node names follow\na 1 2 7\nc node 2 a\\b\n",
        [],
        [],
        '  1 [label="the lake", peripheries=2]\n  2 [label="a\\\\b", peripheries=2]\n  1 -> 2 '
        '[label="a \\"wide\\" pipe\\n7"]\n',
    ),
    "a solution and a cut apart": (
        TWO + "a 1 2 7",
        ["f 1 2 7\ns 7", "c cut 7\nc side 1"],
        [],
        f'  1 [label="1", peripheries=2, {SIDE}]\n  2 [label="2", peripheries=2]\n  1 -> 2 '
        f'[label="7/7", penwidth=2.5, {CUT}]\n',
    ),
    # A line for each arc in order: the second of the parallel arcs is full, and the first has no
    # flow.
    "lines in the order of the arcs": (
        PARALLEL,
        ["s 3\nf 1 2 0\nf 1 2 3\nf 2 2 0\nf 2 3 3\n"],
        [],
        parallel(f'label="0/2", {UNUSED}', 'label="3/3", penwidth=2.5'),
    ),
    # No such lines: 3 from 1 to 2 fill the first arc, and 1 is left for the second.
    "lines by their ends": (
        PARALLEL,
        ["f 2 3 3\nf 1 2 1\nf 1 2 2\ns 3\n"],
        [],
        parallel('label="2/2", penwidth=2.5', 'label="1/3"'),
    ),
    # There is a line for each arc in order, but the first arc cannot carry what its line says.
    "lines in the order of the arcs, of which one is too much for its arc": (
        PARALLEL,
        ["s 3\nf 1 2 3\nf 1 2 0\nf 2 2 0\nf 2 3 3\n"],
        [],
        parallel('label="2/2", penwidth=2.5', 'label="1/3"'),
    ),
    "nodes without arcs, more than are drawn": (
        "p max 16777216 1\nn 1 s\nn 2 t\na 5 2 3\n",
        [],
        [],
        '  1 [label="1", peripheries=2]\n  2 [label="2", peripheries=2]\n  5 [label="5"]\n  5 -> 2 '
        '[label="3"]\n',
    ),
    # The cut is the arc from 2 to 3. Arcs of the nodes 1 and 4 are left out.
    "what lies around the cut": (
        CHAIN,
        ["s 1\nf 1 2 1\nf 2 3 1\nf 3 4 1\nf 4 5 1\nc cut 1\nc side 1\nc side 2\n"],
        ["--most", "2"],
        f"""  label="2 of 4 arcs: those nearest the cut"
  1 [label="1", peripheries=2, {SIDE}]
  2 [label="2", {SIDE}]
  3 [label="3", style="dashed"]
  1 -> 2 [label="1/9"]
  2 -> 3 [label="1/1", penwidth=2.5, {CUT}]
""",
    ),
    "what lies around a cut without arcs": (
        "p max 4 2\nn 1 s\nn 4 t\na 2 3 5\na 3 4 5\n",
        ["c cut 0\nc side 1\n"],
        ["--most", "1"],
        '  label="1 of 2 arcs: those nearest the cut"\n  3 [label="3", style="dashed"]\n  4 '
        '[label="4", peripheries=2]\n'
        '  3 -> 4 [label="5"]\n',
    ),
}
LINE = TWO + "a 1 2 7\n"
# Two ways of which the lower is closed, one of its nodes shut, and an arc added, which is named in
# no comment.
WAYS = (
    "c node 3 Mill\nc arc 1 Upper\nc arc 2 Lower\np max 4 4\nn 1 s\nn 4 t\na 1 2 3\na 1 3 2\na 2 4 "
    "3\na 3 4 2\n"
)
WAYS_FLOW = "s 5\nf 1 2 3\nf 1 3 2\nf 2 4 3\nf 3 4 2\n"
SHUT_FLOW = "s 7\nf 1 2 3\nf 2 4 3\nf 1 4 4\n"
ENDS = ['  1 [label="1", peripheries=2', '  2 [label="2"]\n', '  4 [label="4", peripheries=2]\n']
SHUT_MILL = f'  3 [label="Mill\\nshut", {UNUSED}]\n'
SHUT_ARC = f'  1 -> 3 [label="Lower\\nclosed", style="dashed", {UNUSED}]\n'
SHUT_END = f'  3 -> 4 [label="closed", style="dashed", {UNUSED}]\n'
AFTER_FLOWS, AFTER_CUT = (
    "the network was changed after these flows",
    "the network was changed after this cut",
)
# What is drawn of a session on these ways: its commands (None where they stand among its replies),
# what it wrote, and notes.
SESSIONS: dict[str, tuple[str | None, str, list[str], str]] = {
    "a node is shut and an arc added": (
        "shut 3\nadd 1 4 4\nsolve\nprint cut\n",
        f"c shut value 0\nc add 5 value 0\n{SHUT_FLOW}c cut 7\nc side 1\n",
        [],
        f'{ENDS[0]}, {SIDE}]\n{ENDS[1]}{SHUT_MILL}{ENDS[2]}  1 -> 2 [label="Upper\\n3/3", '
        f"penwidth=2.5, {CUT}]\n{SHUT_ARC}"
        f'  2 -> 4 [label="3/3", penwidth=2.5]\n{SHUT_END}  1 -> 4 [label="4/4", penwidth=2.5, '
        f"{CUT}]\n",
    ),
    "a transcript with a change that is undone": (
        None,
        f"solve\n{WAYS_FLOW}cap 1 9\nc cap value 5\nundo\nc undo value 5\n",
        [],
        f'{ENDS[0]}]\n{ENDS[1]}  3 [label="Mill"]\n{ENDS[2]}  1 -> 2 [label="Upper\\n3/3", '
        "penwidth=2.5]\n"
        '  1 -> 3 [label="Lower\\n2/2", penwidth=2.5]\n'
        '  2 -> 4 [label="3/3", penwidth=2.5]\n  3 -> 4 [label="2/2", penwidth=2.5]\n',
    ),
    "changes after the last solution": (
        None,
        f"solve\n{WAYS_FLOW}c cut 5\nc side 1\nshut 3\nc shut value 3\nadd 1 4 4\nc add 5 value "
        "3\n",
        [AFTER_FLOWS, AFTER_CUT],
        f'  label="{AFTER_FLOWS}\\n{AFTER_CUT}"\n'
        f'{ENDS[0]}, {SIDE}]\n{ENDS[1]}{SHUT_MILL}{ENDS[2]}  1 -> 2 [label="Upper\\n3/3", '
        f"penwidth=2.5, {CUT}]\n{SHUT_ARC}"
        f'  2 -> 4 [label="3/3", penwidth=2.5]\n{SHUT_END}  1 -> 4 [label="4", {CUT}]\n',
    ),
}
# What is said of a session that is drawn no picture of: its commands, what it wrote, and the fault.
SESSION_FAULTS: list[tuple[str | None, str, str]] = [
    (
        None,
        "s 7\nf 1 2 7\nc cap value 3\n",
        "answer: line 3: unknown commands changed the network; give them with --commands FILE",
    ),
    (
        "cap 1 9\nsolve\n",
        "c cap value 0\ns 9\nf 1 2 8\n",
        "answer: line 3: value differs: 8 flows out of the source, not 9",
    ),
    (
        "close 1\n",
        "c cap value 0\n",
        "answer: line 1: this does not answer `close 1`, line 1 of the commands",
    ),
    ("close 1\nundo\n", "c close value 0\n", "commands: line 2: no reply to `undo`"),
]
# Names that are shown as they are, but for what would steer a terminal or end a text.
LITERAL = {
    "Smith &amp; Sons": "Smith &amp; Sons",
    "&lt;b&gt; &#65; R&D": "&lt;b&gt; &#65; R&D",
    "a\\N\\G\\nb\\": "a\\N\\G\\nb\\",
    '"quoted" <b>': '"quoted" <b>',
    "a\0b": "a\\x00b",
    "\x1b[31mred\u202e": "\\x1b[31mred\\u202e",
    "Br\xfccke \u6c34": "Br\xfccke \u6c34",
}
# What is said of a problem of which no picture is drawn, and of such an answer to the problem LINE.
PROBLEM_FAULTS = {
    "": "line 1: problem line expected",
    "p min 2 1\n": "line 1: not a max problem",
    "p max 2 x\n": "line 1: not a number: x",
    "p max 2 18446744073709551616\n": "line 1: number too large: 18446744073709551616",
    "p max 16777217 0\n": "line 1: count out of range",
    "p max 2 1 1\n": "line 1: wrong number of fields",
    TWO + TWO: "line 4: second problem line",
    TWO + "b 1 2 3\n": "line 4: unknown line: b",
    TWO + "a 1 3 1\n": "line 4: no such node: 3",
    TWO.replace("1", "2", 1)
    + "a 1 2 18446744073709551615\na 1 2 1\n": "line 5: capacities past 64 bits",
    TWO + "a 1 2 1\na 1 2 1\n": "line 5: too many arcs",
    TWO + "c end\n": "line 5: too few arcs",
    "p max 2 1\nn 1 s\na 1 2 1\n": "line 3: arc before source and sink",
    "p max 2 1\nn 1 s\nn 1 t\n": "line 3: source and sink are the same",
    "p max 2 1\nn 1 s\nn 2 s\n": "line 3: terminal named twice",
    "p max 2 1\nn 1 x\n": "line 2: neither source nor sink",
    "p max 2 0\nn 1 s\n": "line 3: source or sink missing",
    "c node 3 sea\n" + LINE: "line 1: no such node: 3",
    LINE + "c arc 2 pipe\nc\n": "line 5: no such arc: 2",
    LINE + "c node 1\n": "line 5: node 1 has no name here",
    LINE + "c node 1 a\nc node 1 b\n": "line 6: node 1 is named twice",
    TWO + "a 1 2 \u00b2\n": "line 4: not a number: \u00b2",
    TWO + "a 1 2 " + "9" * 200_000: "line 4: number too large: " + "9" * 60 + "..",
    "c node 1 \t\n" + LINE: "line 1: node 1 has no name here",
    "c node " + "9" * 30 + " a\n" + LINE: "line 1: number too large: " + "9" * 30,
}
ANSWER_FAULTS = {
    "s 8\nf 1 2 8\n": "line 2: over capacity",
    "s 8\nf 1 2 4\nf 1 2 4\n": "line 3: over capacity",
    "s 1\nf 2 1 1\n": "line 2: no such arc: 2 to 1",
    "s 1\ns 1\n": "line 2: second value line",
    "s\n": "line 1: wrong number of fields",
    "s 1\nf 1 2 -1\n": "line 2: not a number: -1",
    "a 1 2 7\n": "line 1: unknown line: a",
    "c side 1\n": "line 1: a side line before its cut",
    "c cut 7\nc side 3\n": "line 2: no such node: 3",
    "c cut 7\nc cut 7\n": "line 2: second cut",
    "c cut 6\nc side 1\n": "line 1: the arcs of this cut carry 7, not 6",
    "c cut 7\n": "line 1: the side of this cut lacks the source or contains the sink",
    "c cut 0\nc side 1\nc side 2\n": "line 1: the side of this cut lacks the source or "
    "contains the sink",
    "s " + "9" * 5000: "line 1: number too large: " + "9" * 60 + "..",
}
FAULTS = [
    *((problem, "", f"problem: {told}") for problem, told in PROBLEM_FAULTS.items()),
    *((LINE, answer, f"answer: {told}") for answer, told in ANSWER_FAULTS.items()),
]
