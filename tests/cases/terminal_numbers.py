"""What the program is to say on a terminal of the numbers in a problem: too large, too few, or no
numbers. Rows for tests/program/test_terminal.py, worked out by hand."""

from terminal_texts import BOUNDS, HEAD, TEXT, capacity, problem, solved

TABLE = "nodes go by number (tools/dmf-problem makes a problem of a table with names)"
CAPACITY = "an arc has three numbers, from, to, capacity (a SRC DST CAP, 4 fields)"
COMMENTED = (
    "an arc has three numbers, from, to, capacity (4 fields), and a comment a line of its own"
)
LARGEST = b"18446744073709551615"
HALF = b"9223372036854775807"

NUMBERS = [
    problem(
        "a comment after an arc",
        capacity(b"5 c main"),
        "line 4: wrong number of fields",
        f": {COMMENTED}; found 6 fields",
    ),
    problem(
        "n s 1",
        TEXT.replace(b"1 s", b"s 1"),
        "line 2: not a number",
        f", field 2: 's' is {BOUNDS}; the number stands before the letter, as in n 1 s",
    ),
    problem(
        "inf",
        capacity(b"inf"),
        "line 4: not a number",
        f", field 4: 'inf' is {BOUNDS}; there is no infinite capacity: write a large number",
    ),
    problem(
        "-1",
        capacity(b"-1"),
        "line 4: not a number",
        f", field 4: '-1' is {BOUNDS}; numbers have no sign (for no limit write a large number)",
    ),
    problem(
        "1e9",
        capacity(b"1e9"),
        "line 4: not a number",
        f", field 4: '1e9' is {BOUNDS}; write digits alone",
    ),
    problem(
        "10.0",
        capacity(b"10.0"),
        "line 4: not a number",
        f", field 4: '10.0' is {BOUNDS}; write digits alone",
    ),
    problem(
        "+5",
        capacity(b"+5"),
        "line 4: not a number",
        f", field 4: '+5' is {BOUNDS}; numbers have no sign (for no limit write a large number)",
    ),
    problem(
        "1,000",
        capacity(b"1,000"),
        "line 4: not a number",
        f", field 4: '1,000' is {BOUNDS}; write digits alone, without commas",
    ),
    problem("x", capacity(b"x"), "line 4: not a number", f", field 4: 'x' is {BOUNDS}"),
    solved(
        "two large capacities",
        HEAD + b"a 1 2 " + HALF + b"\na 2 3 " + HALF + b"\n",
        "s 9223372036854775807",
    ),
    problem(
        "the largest number twice",
        HEAD + b"a 1 2 " + LARGEST + b"\na 2 3 " + LARGEST + b"\n",
        "line 5: capacities past 64 bits",
    ),
    problem(
        "three large capacities",
        HEAD.replace(b"3 2", b"3 3")
        + b"a 1 2 "
        + HALF
        + b"\na 2 3 "
        + HALF
        + b"\na 1 3 "
        + HALF
        + b"\n",
        "line 6: capacities past 64 bits",
    ),
    problem(
        "nodes from 0 on",
        b"p max 3 2\nn 0 s\nn 2 t\na 0 1 5\na 1 2 4\n",
        "line 2: no such node",
        ", field 2: '0' is no node: by the problem line they are numbered from 1 to 3",
    ),
    problem(
        "an arc with a cost",
        capacity(b"0 5 1"),
        "line 4: wrong number of fields",
        f": {CAPACITY}; found 6 fields",
    ),
    problem(
        "no capacity",
        HEAD + b"a 1 2\na 2 3\n",
        "line 4: wrong number of fields",
        f": {CAPACITY}; found 3 fields",
    ),
    problem(
        "too few nodes",
        TEXT.replace(b"3 2", b"2 2"),
        "line 3: no such node",
        ", field 2: '3' is no node: by the problem line they are numbered from 1 to 2",
    ),
    problem(
        "names of nodes",
        b"p max 3 2\nn A s\nn C t\na A B 5\na B C 4\n",
        "line 2: not a number",
        f", field 2: 'A' is {BOUNDS}; {TABLE}",
    ),
    problem(
        "no number of arcs",
        TEXT.replace(b"3 2", b"3"),
        "line 1: wrong number of fields",
        ": the problem line has two numbers (p max NODES ARCS, 4 fields); found 3 fields",
    ),
    problem(
        "one node",
        b"p max 1 0\nn 1 s\nn 1 t\n",
        "line 1: count out of range",
        ", field 3: '1' nodes: NODES is from 2 to 16777216",
    ),
    problem(
        "many nodes",
        b"p max 99999999 0\nn 1 s\nn 2 t\n",
        "line 1: count out of range",
        ", field 3: '99999999' nodes: NODES is from 2 to 16777216",
    ),
    problem(
        "many arcs",
        b"p max 2 999999999\n",
        "line 1: count out of range",
        ", field 4: '999999999' arcs: ARCS is at most 134217728",
    ),
    problem(
        "a number past all",
        capacity(b"18446744073709551616"),
        "line 4: number too large",
        ", field 4: '18446744073709551616' is past 18446744073709551615, the largest number",
    ),
    problem(
        "control characters",
        capacity(b"\x1b[2J\x07"),
        "line 4: not a number",
        f", field 4: '\\x1b[2J\\x07' is {BOUNDS}",
    ),
    problem(
        "a control character past ASCII",
        capacity("1\u009b2J".encode()),
        "line 4: not a number",
        f", field 4: '1\\x9b2J' is {BOUNDS}; write digits alone",
    ),
    problem(
        "no UTF-8",
        capacity(b"1\xff"),
        "line 4: not a number",
        f", field 4: '1\ufffd' is {BOUNDS}; write digits alone",
    ),
    problem(
        "a long field",
        capacity(b"y" * 70),
        "line 4: not a number",
        f", field 4: '{'y' * 60}..' is {BOUNDS}",
    ),
]
