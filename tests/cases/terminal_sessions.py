"""What the program is to say on a terminal in a session and of words that it does not take: rows
for tests/program/test_terminal.py, worked out by hand."""

from __future__ import annotations

from dataclasses import dataclass

from commands import LISTED, LISTED_PRINTS

# Arcs and nodes with names, a name that two arcs have, and some of several words.
NETWORK = b"""c arc 2 Tunnel
c arc 3 Mill Street, 300 mm
c node 3 Reservoir
c node 2 Old Mill
c node 4 New Harbour
c node 1 Old Mill Old Mill
c arc 4 Bridge
c arc 5 Bridge
p max 4 5
n 1 s
n 4 t
a 1 2 3
a 1 3 2
a 2 3 5
a 2 4 2
a 3 4 3
"""
SOLVED = "s 5\nf 1 2 3\nf 1 3 2\nf 2 3 1\nf 2 4 2\nf 3 4 3\n"
INVITATION = "dmf: reads a problem from the terminal; Ctrl-D ends it (dmf --help says more)\n"
COMMANDS = (
    f"the commands are {', '.join(LISTED)} and {', '.join(LISTED_PRINTS)}; Ctrl-D ends the session"
)
ADD_FORM = "add takes two nodes and a capacity (add V W U, 4 fields)"
LARGEST = 18446744073709551615
BOUNDS = f"is no whole number from 0 to {LARGEST}"


@dataclass(frozen=True)
class Words:
    """Words that ask for a run that fails, with the status, and what is said after the fixed
    text."""

    words: str
    status: int
    meant: str


# Of a session before its first change, by what they are refused for: command lines, each with what
# is said of it.
REFUSED = {
    "unknown command": {
        **dict.fromkeys(("help", "?", "quit", "exit"), COMMANDS),
        "wash it": f"'wash' is no command: {COMMANDS}",
        "SOLVE": "'SOLVE' is no command: all commands are in lower case (help lists them)",
        "print x": "'x' is not printed: print problem, print flow or print cut",
    },
    "not a number": {
        "close Tunnel": "arcs go by number here: 2 is Tunnel",
        "cap Bridge 1": "arcs go by number here: 4 is Bridge, and so is another",
        "close Nobody": "'Nobody' is no number: arcs go by number here, from 1 in the order of the "
        "problem",
        "shut Reservoir": "nodes go by number here: 3 is Reservoir",
        "add 1 Reservoir 1": "nodes go by number here: 3 is Reservoir",
        "shut Tunnel": "'Tunnel' is no number: nodes go by number here",
        "add 1 4 inf": f"'inf' {BOUNDS}; there is no infinite capacity: write a large number",
        "cap 1 -2": f"'-2' {BOUNDS}; numbers have no sign (for no limit write a large number)",
        "undo x": f"'x' {BOUNDS}",
    },
    "wrong number of fields": {
        "close Mill Street, 300 mm": "arcs go by number here: 3 is Mill Street, 300 mm",
        "cap Mill Street, 300 mm 5": "arcs go by number here: 3 is Mill Street, 300 mm",
        "shut Old Mill": "nodes go by number here: 2 is Old Mill",
        "add Old Mill New Harbour 5": "nodes go by number here: the two are 2 and 4",
        "add 3 Old Mill 5": "nodes go by number here: the two are 3 and 2",
        # The first name may end at two places.
        "add Old Mill Old Mill Old Mill 5": f"{ADD_FORM}; found 8 fields",
        "add Old Mill Nowhere 5": f"{ADD_FORM}; found 5 fields",
        "add 1 2": f"{ADD_FORM}; found 3 fields",
        "cap 1": "cap takes an arc and its new capacity (cap I U, 3 fields); found 2 fields",
        "close": "close takes an arc (close I, 2 fields); found 1 field",
        "shut 1 2": "shut takes a node (shut V, 2 fields); found 3 fields",
        "solve 1": "solve takes nothing (1 field); found 2 fields",
        "redo 1 2": "redo takes a count or nothing (redo [K], 1 or 2 fields); found 3 fields",
        "print": "print takes problem, flow or cut (2 fields); found 1 field",
    },
    "no such arc": dict.fromkeys(("cap 99 1", "close 0"), "there are arcs 1 to 5"),
    "no such node": {"shut 9": "there are nodes 1 to 4"},
    "number too large": {"cap 1 99999999999999999999": f"the largest number is {LARGEST}"},
    "capacities past 64 bits": {
        f"cap 1 {LARGEST}": "the sum of all capacities would pass 2^64 - 1: give a smaller number"
    },
    "nothing to undo": {
        "undo": "there are not so many changes to undo; undo K takes back all K or none"
    },
    "nothing to redo": {
        "redo 3": "there are not so many undone changes; a new change drops them, and redo K makes "
        "all K "
        "or none"
    },
    "flow is not greatest": {"print cut": "solve first: a cut is told of a greatest flow alone"},
}
# Command lines after these, each with what it is refused for and what is said of it, or with its
# reply.
CHANGED = [
    ("c close Tunnel", "", ""),
    ("add 1 4 2", "", "c add 6 value 0\n"),
    (
        "cap 99 1",
        "no such arc",
        "the problem has arcs 1 to 5, and added ones follow by the number in their reply",
    ),
    ("close 1", "", "c close value 0\n"),
    ("close 1", "arc is closed", "undo alone opens a closed arc"),
    ("x" * 5000, "line too long", "a command line has at most 4096 bytes"),
    ("close Tunnel", "not a number", "arcs go by number here: 2 is Tunnel"),
]
LINES = [
    (line, refusal, said) for refusal, lines in REFUSED.items() for line, said in lines.items()
] + CHANGED
# Each command line, its reply, and the line that is said of it.
SESSION = [
    (line.encode(), f"c refused {number} {refusal}\n", f"dmf: {said}\n")
    if refusal
    else (line.encode(), said, "")
    for number, (line, refusal, said) in enumerate(LINES, 1)
]

SOLVE_THIS = "dmf solve <named.max\n"
BOUND = "N is a whole number from 0 to 1000000\n"
WORDS = [
    Words("solve named.max", 2, SOLVE_THIS),
    Words("solve --cut named.max", 2, "dmf solve --cut <named.max\n"),
    Words("solve named.max --progress", 2, SOLVE_THIS),
    Words("solve none.max", 2, "dmf solve <none.max\n"),
    Words("vital none.max", 2, "dmf vital <none.max\n"),
    Words("vital none.max --cut", 2, ""),
    Words("vital --nodes none.max", 2, "dmf vital --nodes <none.max\n"),
    Words("vital none.max --nodes", 2, "dmf vital --nodes <none.max\n"),
    Words("vital --nodes one.max two.max", 2, ""),
    Words("vital --worst 3 none.max", 2, "dmf vital --worst 3 <none.max\n"),
    Words("vital --pairs --worst 3 none.max", 2, "dmf vital --pairs --worst 3 <none.max\n"),
    Words("vital --pairs none.max", 2, ""),
    Words("vital --second none.max", 2, "dmf vital --second <none.max\n"),
    Words("vital --second --worst 3 none.max", 2, ""),
    Words("vital --nodes --pairs --worst 3 none.max", 2, ""),
    Words("vital --worst 10001 none.max", 2, "N is a whole number from 0 to 10000\n"),
    Words("vital --worst=x", 2, "N is a whole number from 0 to 10000\n"),
    Words("vital --worst", 2, "N is a whole number from 0 to 10000\n"),
    Words("solve one.max two.max", 2, ""),
    Words("solve it's", 2, ""),
    Words("check named.max plan.sol", 2, "dmf check named.max <plan.sol\n"),
    Words("session named.max commands.txt", 2, "dmf session named.max <commands.txt\n"),
    Words("session --brif named.max", 2, ""),
    Words("check named.max it's", 2, ""),
    Words("check one.max two.sol three.sol", 2, ""),
    Words("named.max", 2, SOLVE_THIS),
    Words("none.max", 2, ""),
    Words("folder", 2, ""),
    Words("wash", 2, ""),
    Words("--cut", 2, ""),
    Words("session", 2, ""),
    Words("session --history x named.max", 2, BOUND),
    Words("session --history 1000001 named.max", 2, BOUND),
    Words("session --history -1 named.max", 2, BOUND),
    Words("session --history=1.5 named.max", 2, BOUND),
    Words("session --history", 2, BOUND),
    Words("session --history 5", 2, ""),
    Words("--version", 0, ""),
]
OPENING = [
    Words("session none.max", 4, "none.max: No such file or directory (os error 2)\n"),
    Words("check none.max", 4, "none.max: No such file or directory (os error 2)\n"),
    Words("session a\x1b[2Jb.max", 4, "a\\x1b[2Jb.max: No such file or directory (os error 2)\n"),
    Words("check " + "n" * 70, 4, "n" * 60 + "..: No such file or directory (os error 2)\n"),
    Words("session folder", 4, "folder is a folder\n"),
    Words("check folder", 4, "folder is a folder\n"),
]
HELP = ["--help", "solve --help", "session --help", "check --help", "help session"]
