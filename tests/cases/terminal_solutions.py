"""What the program is to say of solutions on a terminal: rows for tests/program/test_terminal.py,
worked out by hand."""

from terminal_texts import BOUNDS, solution

SOLUTIONS = [
    solution("a word", b"s 5\nf 1 2 x\n", "line 2: not a number", f", field 4: 'x' is {BOUNDS}"),
    solution(
        "a name",
        b"s 5\nf A 2 1\n",
        "line 2: not a number",
        f", field 2: 'A' is {BOUNDS}; nodes go by number",
    ),
    solution(
        "a fraction",
        b"s 1.0\n",
        "line 1: not a number",
        f", field 2: '1.0' is {BOUNDS}; write digits alone",
    ),
    solution(
        "a number past all",
        b"s 99999999999999999999\n",
        "line 1: number too large",
        ", field 2: '99999999999999999999' is past 18446744073709551615, the largest number",
    ),
    solution(
        "no arc",
        b"s 5\nf 1 4 1\n",
        "line 2: no such arc",
        ": the problem has no arc from '1' to '4'",
    ),
    solution(
        "too much",
        b"s 5\nf 1 2 9\n",
        "line 2: over capacity",
        ": up to this line more flows than the arcs can carry from '1' to '2' (their capacities "
        "together)",
    ),
    solution("two values", b"s 5\ns 4\n", "line 2: second value line"),
    solution("no value", b"f 1 2 3\n", "line 2: value line missing"),
    solution("no flow", b"s 3\nf 1 2 3\n", "line 3: flow not conserved at node 2"),
    solution("another value", b"s 1\n", "line 2: value differs"),
    solution(
        "a problem",
        b"p max 3 4\n",
        "line 1: unknown line",
        ", field 1: 'p' begins a line of a problem, and a solution is expected here: dmf check "
        "PROBLEM <SOLUTION",
    ),
    solution(
        "another line",
        b"x\n",
        "line 1: unknown line",
        ", field 1: 'x' begins no line of a solution: these begin with c, s or f",
    ),
    solution(
        "two numbers of a value",
        b"s 1 2\n",
        "line 1: wrong number of fields",
        ": the value line has one number (s VALUE, 2 fields); found 3 fields",
    ),
    solution(
        "no number of a flow",
        b"f 1 2\n",
        "line 1: wrong number of fields",
        ": a flow has three numbers, from, to, flow (f SRC DST FLOW, 4 fields); found 3 fields",
    ),
    solution(
        "gzip",
        b"\x1f\x8b\x08",
        "line 1: unknown line",
        ": the text is compressed by gzip: gunzip -c FILE writes it as it was",
    ),
]
