"""The cases of tests/tools/test_dmf_problem.py: tables with the problems, values and messages that
are worked out by hand."""

from __future__ import annotations

from collections.abc import Mapping
from dataclasses import dataclass, field
from typing import Union

Text = Union[str, bytes]


@dataclass(frozen=True)
class Case:
    """A table on standard input, the words after the tool's name, and the files of the folder in
    which it is called."""

    table: Text
    words: tuple[str, ...] = ("A", "B")
    files: Mapping[str, Text] = field(default_factory=dict)


LARGEST = 2**64 - 1
TITLES = "from,to,cap\n"
# One arc from A to B of capacity 3.
ARC = "c node 1 A\nc node 2 B\np max 2 1\nn 1 s\nn 2 t\na 1 2 3\n"
# Two arcs, the second with a name.
NAMED = (
    "c node 1 A\nc node 2 B b\nc arc 2 the long way\np max 2 2\nn 1 s\nn 2 t\na 1 2 3\na 1 2 4\n"
)
GERMAN = "Nr;max;von;nach;Rohr\n1;3;A;B b;\n2;4;A;B b;the long way\n"
BY_TITLE = ("--tail", "von", "--head", "nach", "--capacity", "max")
# The places in a row, with what stands between them.
ROW = "A,Depot,9\nDepot,B,9\nA,B,1\n"
LIMITED = """c inner node 4 half 2
c inner arc 4 limit 2
c node 1 A
c node 2 Depot
c node 3 B
c node 4 Depot
c arc 4 limit of Depot
p max 4 4
n 1 s
n 3 t
a 1 2 9
a 4 3 9
a 1 3 1
a 2 4 5
"""
# Two sources, the second limited, and one sink.
MILLS = "Mill,Town,7\nHill,Town,9\nHill,Mill,2\nMill,Hill,4\n"
JOINED = """c inner node 4 sources
c inner arc 5 supply 1 unlimited
c inner arc 6 supply 3
c node 1 Mill
c node 2 Town
c node 3 Hill
c node 4 all sources
c arc 5 supply of Mill
c arc 6 supply of Hill
p max 4 6
n 4 s
n 2 t
a 1 2 7
a 3 2 9
a 3 1 2
a 1 3 4
a 4 1 11
a 4 3 6
"""
SCALED = "c capacities are those of the table times 10\n" + ARC.replace("a 1 2 3", "a 1 2 35")

# Each table, and the problem that it makes, with the one line that tells what was taken for what.
PROBLEMS: list[tuple[Case, str]] = [
    (Case("A,B,3"), ARC),
    (Case("A,B, 3 \n"), ARC),
    (Case(TITLES + "A,B,3\n"), ARC),
    (Case(TITLES + "A,B,003\n"), ARC),
    (Case(TITLES + f"A,B,{'0' * 5000}3\n"), ARC),
    (Case(b"\xef\xbb\xbf" + b"A,B,3\n"), ARC),
    (Case("\r\nA,B,3\r\n\r\n"), ARC),
    (Case("A,B,3\r"), ARC),
    (Case('"A";"B";"3"\n'), ARC),
    (Case("A\tB\t3\n"), ARC),
    (Case('"from, where";"to, where";max\nA;B;3\n'), ARC),
    (
        Case("from;to;litres, a second, at most\nA;B;3\n"),
        "c unit litres, a second, at most\n" + ARC,
    ),
    (Case("A,B,3,,,\n , ,\n,,,\n"), ARC),
    (Case("A,B,3\n", ("--source", "A", "--sink", "B")), ARC),
    (Case("-A,B,3\n", ("--", "-A", "B")), ARC.replace("1 A", "1 -A")),
    (
        Case("-A,--,3\n", ("--table", "/dev/stdin", "--", "-A", "--")),
        ARC.replace("1 A", "1 -A").replace("2 B", "2 --"),
    ),
    (Case("", ("--table", "t.csv", "A", "B"), {"t.csv": "A,B,3\n"}), "c table t.csv\n" + ARC),
    (Case("A,B,3\n".encode("utf-16"), ("A", "B", "--encoding", "utf-16")), ARC),
    (Case("A,B,3\n".encode("utf-16")), ARC),
    (Case("\ufeffA,B,3\n".encode("utf-16-be")), ARC),
    (Case("A,B,1 200\n"), ARC.replace("2 3\n", "2 1200\n")),
    (
        Case("A,B,1\u202f200\nA,B,13e2\n"),
        ARC.replace("2 1\n", "2 2\n").replace("2 3\n", "2 1200\na 1 2 1300\n"),
    ),
    (
        Case("A,B,+3\nA,B,\uff14\nA,B,\u0665\n"),
        ARC.replace("2 1\n", "2 3\n") + "a 1 2 4\na 1 2 5\n",
    ),
    (Case("A,B,3.5\n"), SCALED),
    (Case(TITLES + "A,B,3.50\nA,B,1,\n"), SCALED.replace("2 1\n", "2 2\n") + "a 1 2 10\n"),
    (Case("A|B|3\n"), ARC),
    (Case("sep=;\nA;B;3\n"), ARC),
    (Case("from,to,cap (l/s)\nA,B,3\n"), "c unit l/s\n" + ARC),
    (Case("from,to,cap\nA,B,3 l/s\n"), "c unit l/s\n" + ARC),
    (
        Case(TITLES + 'A,B b,3\nA,B b,"4"\n', ("A", "B b")),
        NAMED.replace("c arc 2 the long way\n", ""),
    ),
    (Case('from,to,cap,name\nA,B b,3\nA,"B b",4,the long way', ("A", "B b")), NAMED),
    (
        Case("\ufefffrom;to;cap;name\r\nA;B b;3;\r\n;;;\r\nA;B b;4;the long\tway\r", ("A", "B  b")),
        NAMED,
    ),
    # A character that ends a line for some readers is a space in a name.
    (Case('A,B b,3\nA,B b,4,"the\nlong\u2028way\x0c"\n', ("A", "B b")), NAMED),
    (Case('A,B b,3\nA,B b,4,"the\r\n\r\n\x85long\x0b \xa0way"\n', ("A", "B b")), NAMED),
    # The columns that the tool does not read are kept.
    (
        Case(GERMAN, (*BY_TITLE, "--name", "Rohr", "A", "B b")),
        NAMED.replace("p max", "c column 1 Nr\nc cell 1 1 1\nc cell 2 1 2\np max"),
    ),
    (
        Case(GERMAN, ("A", *BY_TITLE, "B b")),
        NAMED.replace(
            "c arc 2 the long way\n",
            "c column 1 Nr\nc column 2 Rohr\nc cell 1 1 1\nc cell 2 1 2\nc cell 2 2 the long way\n",
        ),
    ),
    (
        Case(
            "from,to,2024\nA,B,3\n",
            ("--tail", "from", "--head", "to", "--capacity", "2024", "A", "B"),
        ),
        ARC,
    ),
    (
        Case("A,M\xfchle,3\n".encode("latin-1"), ("A", "M\xfchle", "--encoding", "latin-1")),
        ARC.replace("2 B", "2 M\xfchle"),
    ),
    (Case(f"A,B,{LARGEST}\n"), ARC.replace("2 3", f"2 {LARGEST}")),
    (Case(TITLES + "A,B,3.5\n", ("--scale", "10", "A", "B")), SCALED),
    (Case(TITLES + "A,B,03.500\n", ("--scale", "10", "A", "B")), SCALED),
    (Case("A,B,.35\n", ("--scale", "100", "A", "B")), SCALED.replace("times 10", "times 100")),
    (Case("A,B,70\n", ("--scale", "0.5", "A", "B")), SCALED.replace("times 10", "times 0.5")),
    (
        Case("A,B,3\n", ("--both-ways", "A", "B")),
        "c both ways 1 2\n" + ARC.replace("max 2 1", "max 2 2") + "a 2 1 3\n",
    ),
    (
        Case("A,B,3,M", ("--both-ways", "A", "B")),
        "c both ways 1 2\nc node 1 A\nc node 2 B\nc arc 1 M\nc arc 2 M\np max 2 2\nn 1 s\nn 2 t\n"
        "a 1 2 3\na 2 1 3\n",
    ),
    (Case(ROW, ("A", "B", "--node-limits", "l.csv"), {"l.csv": "Depot,5\n"}), LIMITED),
    (
        Case(ROW, ("A", "B", "--node-limits", "l.csv"), {"l.csv": "place;most\r\nDepot;5\r\n"}),
        LIMITED,
    ),
    (Case(MILLS, ("--source", "Mill", "--source", "Hill=6", "--sink", "Town")), JOINED),
    (
        Case("A=1,B,3\n", ("--source", "A=1", "--sink", "B=2")),
        (
            "c inner node 3 sinks\nc inner arc 2 demand 2\nc node 1 A=1\nc node 2 B\nc node 3 all "
            "sinks\nc arc 2 demand of B\np max 3 2\nn 1 s\nn 3 t\na 1 2 3\na 2 3 2\n"
        ),
    ),
    (
        Case("all sources,B,3\n", ("--source", "all sources=2", "--sink", "B")),
        (
            "c inner node 3 sources\nc inner arc 2 supply 1\nc node 1 all sources\nc node 2 B\nc"
            " node 3 all sources 2\nc arc 2 supply of all sources\np max 3 2\nn 3 s\nn 2 t\na 1 2"
            " 3\na 3 1 2\n"
        ),
    ),
]

FROM_A_TO_B = ("A", "B", "--node-limits", "l.csv")
# Each table, and the greatest value of its problem.
VALUES: list[tuple[Case, int]] = [
    # The first row is an arc: 30 straight, and 2 through B.
    (Case("A,Z,30\nA,B,3\nB,Z,2\n", ("A", "Z")), 32),
    # 5 through the depot, and 1 beside it; without a limit 10.
    (Case(ROW, FROM_A_TO_B, {"l.csv": "Depot,5\n"}), 6),
    (Case(ROW, FROM_A_TO_B, {"l.csv": "Depot,50\n"}), 10),
    (Case(ROW, FROM_A_TO_B, {"l.csv": "Depot,0\n"}), 1),
    # The source gives 4 at most, and the sink takes 3 at most.
    (Case(ROW, FROM_A_TO_B, {"l.csv": "A,4\n"}), 4),
    (Case(ROW, FROM_A_TO_B, {"l.csv": "B,3\nA,4\n"}), 3),
    # Town gets 7 from Mill, and from Hill the 2 that it gives and the 4 that Mill sends over it;
    # unlimited 7 + 9.
    (Case(MILLS, ("--source", "Mill", "--source", "Hill=2", "--sink", "Town")), 13),
    (Case(MILLS, ("--source", "Mill", "--source", "Hill", "--sink", "Town")), 16),
    # Mill gives 3, and 2 pass through Hill.
    (
        Case(
            MILLS,
            (
                "--source",
                "Mill=3",
                "--source",
                "Hill=6",
                "--sink",
                "Town",
                "--node-limits",
                "l.csv",
            ),
            {"l.csv": "Hill,2\n"},
        ),
        5,
    ),
    # 1.5 and 2.25, a hundred times.
    (Case("A,B,1.5\nA,B,2.25\n", ("--scale", "100", "A", "B")), 375),
    (Case("A,B,1.5\nA,B,2.25\n"), 375),
    # Limits are scaled as capacities are: 0.5 of 1.5, ten times.
    (Case("A,B,1.5\n", ("--scale", "10", "--source", "A=0.5", "--sink", "B")), 5),
    # Against the arrow: 4 from A to M, of which 3 go on.
    (Case("M,A,4\nM,B,3\n", ("--both-ways", "A", "B")), 3),
    # 5 + 2 of stock, of which West's 2 is all that its road of 4 carries, and South takes 3.
    (
        Case(
            "East,North,4\nEast,South,4\nWest,South,4\n",
            ("--sources", "stock.csv", "--sinks", "orders.csv"),
            {"stock.csv": "depot,pallets\nEast,5\nWest,2\n", "orders.csv": "North,9\nSouth,3\n"},
        ),
        # North 4, South 3.
        7,
    ),
]
