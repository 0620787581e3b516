"""Tables that tools/dmf-problem refuses or warns of, with the messages, worked out by hand."""

from __future__ import annotations

from table_cases import BY_TITLE, FROM_A_TO_B, GERMAN, LARGEST, ROW, TITLES, Case

HINT = " (if these are titles, name the columns: --tail, --head and --capacity)"
NO_NUMBER = "is not a number; write one as 47.3 or 47,3"
HOW_MISSING = (
    "Give --missing 0 to read such cells as 0, or --missing unlimited to read them as without a"
    " limit"
)
DIGITS = "9" * 5000
LONG = "x" * 131_073
UNKNOWN = "Reservoir,Harbour,3\n"


def at(line: int, reason: str, column: int = 3) -> str:
    return f"line {line}, column {column}: {reason}" if column else f"line {line}: {reason}"


def below(line: int, reason: str, column: int = 3) -> str:
    """The same of a table whose titles are `TITLES`."""
    title = ["", "from", "to", "cap"][column] if column < 4 else ""
    return f"line {line}, column '{title}': {reason}" if title else at(line, reason, column)


# Each table that is refused, and what is told of it.
FAULTS: list[tuple[Case, str]] = [
    (Case(""), "the table is empty"),
    (Case("\n , \n"), "the table is empty"),
    (Case(TITLES), "the table has titles, and no row below them"),
    (
        Case('A,B,"1,200"\n'),
        at(
            1,
            (
                "'1,200' may be 1200 with a decimal point or 1.2 with a decimal comma: "
                f"--decimal . or --decimal ,{HINT}"
            ),
        ),
    ),
    (
        Case(TITLES + 'A,B,30.5\nA,B,"47,3"\n'),
        below(
            3,
            (
                "'47,3' has another decimal sign than '30.5' in line 2; change one, or "
                "name the sign: --decimal . or --decimal ,"
            ),
        ),
    ),
    (
        Case(TITLES + "A,B,30.5\n", ("A", "B", "--decimal", ",")),
        below(2, "'30.5' is not a number with a decimal comma"),
    ),
    (
        Case(TITLES + "A,B,2024-05-03\n"),
        below(2, "'2024-05-03' is a date, not a number"),
    ),
    (Case(TITLES + "A,B,nan\n"), below(2, f"'nan' is not a number. {HOW_MISSING}")),
    (
        Case(TITLES + "A,B,#REF!\n"),
        below(2, "'#REF!' is a formula or its error, not a number"),
    ),
    (
        Case(TITLES + "A,B,3 l/s\nA,B,3 m3/h\n"),
        below(3, "a capacity has the unit 'm3/h', and line 2 has 'l/s'"),
    ),
    (Case(TITLES + "A,B,3 l/s\nA,B,3\n"), below(3, "a capacity has no unit, and line 2 has 'l/s'")),
    (
        Case("from,to,cap (m)\nA,B,3 l\n"),
        "line 2, column 'cap (m)': a capacity has the unit 'l', and the title has 'm'",
    ),
    (Case("A,Z,-3\n"), at(1, f"'-3' is below 0{HINT}")),
    (Case("A,Z,\n"), at(1, f"no capacity. {HOW_MISSING}{HINT}")),
    (Case("A,Z\n"), at(1, f"no capacity: the row has 2 columns{HINT}")),
    (Case("A,B,\xb2\n"), at(1, f"'\xb2' {NO_NUMBER}{HINT}")),
    (Case("A,B,?\nA,B,3\n"), at(1, f"'?' is not a number. {HOW_MISSING}{HINT}")),
    (Case("A,B,inf\nA,B,3\n"), at(1, f"'inf' is not a number{HINT}", 0)),
    (
        Case(TITLES + "A,B,3.55\n", ("--scale", "10", "A", "B")),
        below(2, "'3.55' times 10 is not a whole number; --scale 100?"),
    ),
    (Case(TITLES + "A,,3\n"), below(2, "no head", 2)),
    (Case(TITLES + ",B,3\n"), below(2, "no tail", 1)),
    (Case(TITLES + "A,B\n"), below(2, "no capacity: the row has 2 columns")),
    (Case(TITLES + "A,B,1,000\n"), below(2, "4 columns, and 3 have titles", 0)),
    (Case(TITLES + f"A,B,{DIGITS}\n"), below(2, f"'{DIGITS[:57]}...' is past {LARGEST}")),
    (
        Case(TITLES + f"A,B,{LARGEST + 1}\n"),
        below(2, f"'{LARGEST + 1}' is past {LARGEST}"),
    ),
    # 2^64 - 1 over 2, and over 10.
    (
        Case(f"A,B,{LARGEST}\n", ("--scale", "2", "A", "B")),
        at(1, f"'{LARGEST}' is past 9223372036854775807.5"),
    ),
    (
        Case(f"A,B,0.5\nA,B,{LARGEST}\n"),
        at(2, f"'{LARGEST}' is past 1844674407370955161.5"),
    ),
    (
        Case(TITLES + f"A,B,{LARGEST}\nA,B,1\n"),
        below(3, f"the capacities are together past {LARGEST}", 0),
    ),
    (
        Case(f"A,B,{2**63}\n", ("--both-ways", "A", "B")),
        at(1, f"the capacities are together past {LARGEST}", 0),
    ),
    (
        Case(f"A,B,{LARGEST}\n", ("--source", "A=1", "--sink", "B")),
        (
            "with the arcs at the sources and the sinks the capacities are together past"
            f" {LARGEST}; --source NAME=LIMIT limits one"
        ),
    ),
    (
        Case(TITLES + f"A,B,3,{LONG}\n"),
        below(
            2, "a cell has 131073 characters, and 131072 are the most; is a quote not closed?", 4
        ),
    ),
    (
        Case(TITLES + f"A,{LONG},3\n"),
        below(
            2, "the head has 131073 characters, and 131072 are the most; is a quote not closed?", 2
        ),
    ),
    (
        Case(f"A,B,3,{LONG}\n"),
        at(
            1,
            (
                "the name has 131073 characters, and 131072 are the most; is a quote not "
                f"closed?{HINT}"
            ),
            4,
        ),
    ),
    (Case(TITLES + 'A,B,3\nA,"B\nA,B,2\n'), below(3, "a quote is not closed", 0)),
    (Case(TITLES + 'A,"B"b,3\n'), below(2, "a quote inside quotes is not written twice", 0)),
    (
        Case(TITLES + "A\x00,B,3\n"),
        below(2, "the tail 'A\\x00' has the character U+0000, which no name may have", 1),
    ),
    (
        Case(TITLES + "A,B,3\nA,B\x1b[2J,3\n"),
        below(3, "the head 'B\\x1b[2J' has the character U+001B, which no name may have", 2),
    ),
    (
        Case("A,B,3,\x07\n"),
        at(1, f"the name '\\x07' has the character U+0007, which no name may have{HINT}", 4),
    ),
    (
        Case(TITLES.encode() + b"A,M\x81hle,3\n"),
        below(2, "the byte 0x81 is neither UTF-8 nor Windows-1252; --encoding cp437?", 0),
    ),
    (Case(TITLES.encode("utf-16") + b"A"), below(2, "the byte 0x41 is not utf-16", 0)),
    (
        Case(b"A,M\xfchle,3\n", ("A", "B", "--encoding", "ascii")),
        at(1, "the byte 0xfc is not ascii", 0),
    ),
    (
        Case("A,B,3\n".encode("utf-16-le")),
        "every other byte is 0, as UTF-16-LE has it: --encoding utf-16-le",
    ),
    (Case("A,B,3\n", ("A", "A")), "source and sink are the same: 'A'"),
    (
        Case("A,B,3\n", ("--source", "A", "--source", "A=2", "--sink", "B")),
        "the source 'A' is named twice",
    ),
    (Case("A,B,3\n", ("A", "C")), "the sink 'C' is in no row of arcs"),
    (
        Case(UNKNOWN, ("Resevoir", "Harbour")),
        "the source 'Resevoir' is in no row of arcs; is it 'Reservoir'?",
    ),
    (
        Case(UNKNOWN, ("--source", "Reservoir", "--sink", "HARBOR=3")),
        "the sink 'HARBOR=3' is in no row of arcs; is it 'Harbour'?",
    ),
    (Case("A,B,3\n", ("--source", "A=x", "--sink", "B")), "the limit 'x' of 'A' is not a number"),
    (
        Case(ROW, FROM_A_TO_B, {"l.csv": "Depo,5\n"}),
        "l.csv, line 1: no arc has the place 'Depo'; is it 'Depot'?",
    ),
    (
        Case(ROW, FROM_A_TO_B, {"l.csv": "Depot,5\nDepot,6\n"}),
        "l.csv, line 2: 'Depot' has a limit in line 1 already",
    ),
    (
        Case(ROW, FROM_A_TO_B, {"l.csv": "Depot,inf\nA,6\n"}),
        "l.csv, line 1: 'inf' is not a number",
    ),
    (
        Case(ROW, FROM_A_TO_B, {"l.csv": "place,most\nDepot,5x\n"}),
        f"l.csv, line 2, column 'most': '5x' {NO_NUMBER}",
    ),
    (
        Case(ROW, FROM_A_TO_B, {"l.csv": f"Depot,{LARGEST}\n"}),
        f"l.csv, line 1: the capacities are together past {LARGEST}",
    ),
    (Case(ROW, FROM_A_TO_B, {"l.csv": ""}), "l.csv: the table is empty"),
    (Case(ROW, FROM_A_TO_B), "cannot read l.csv: No such file or directory"),
    (
        Case("", ("--table", "t.csv", "A", "B"), {"t.csv": "A,B,3\nA,B,x\n"}),
        f"t.csv, line 2, column 3: 'x' {NO_NUMBER}",
    ),
    (
        Case("A,B,3\n", ("--sources", "s.csv", "--sink", "B"), {"s.csv": "place,most\nA,3\nC,3\n"}),
        "s.csv, line 3: the source 'C' is in no row of arcs",
    ),
    (
        Case("A,B,3\n", ("--sources", "s.csv", "--sink", "B"), {"s.csv": "A,all\n"}),
        "s.csv: the table has titles, and no row below them",
    ),
    (
        Case(GERMAN, (*BY_TITLE[:5], "Max", "A", "B b")),
        at(
            1, "no column has the title 'Max'; the titles are 'Nr', 'max', 'von', 'nach', 'Rohr'", 0
        ),
    ),
    (
        Case("von,nach,max,max\nA,B,3,3\n", (*BY_TITLE, "A", "B")),
        at(1, "two columns have the title 'max'; the titles are 'von', 'nach', 'max', 'max'", 0),
    ),
]
SAME = "rows are the same, and each counts: line 2 as 1"
# Each table of which a problem is made with warnings, and these.
WARNINGS: list[tuple[Case, list[str]]] = [
    (
        Case("A,B,3\nA,C,3\n"),
        ["arcs enter, and none leave, a place that is not a sink: 'C' (line 2)"],
    ),
    (
        Case("A,B,3\nC,B,3\nD,B,3\n"),
        ["arcs leave, and none enter, a place that is not a source: 'C' (line 2), 'D' (line 3)"],
    ),
    (
        Case("A,B,3\n", ("B", "A")),
        [
            "arcs leave, and none enter, a place that is not a source: 'A' (line 1)",
            "arcs enter, and none leave, a place that is not a sink: 'B' (line 1)",
            "no way leads from a source to a sink over arcs that carry anything",
        ],
    ),
    (
        Case("A,B,3\nA,b,3\nb,B,3\n"),
        ["names that differ only in case, or in what is not seen, are several places: 'B', 'b'"],
    ),
    (
        Case("A,B,3\nA,e\u0301,3\ne\u0301,B,3\nA,\xe9\u200b,3\n\xe9\u200b,B,3\n"),
        [
            "names that differ only in case, or in what is not seen, are several places: "
            "'e\u0301', "
            "'\xe9\\u200b'"
        ],
    ),
    # Two files, one after the other, each with its mark.
    (
        Case("\ufeffA,B,3\n\ufeffA,B,3\n"),
        ["names that differ only in spaces are one place: '\\ufeffA' is 'A'", SAME],
    ),
    (
        Case("A,B,3\nA,B ,3\n"),
        ["names that differ only in spaces are one place: 'B ' is 'B'", SAME],
    ),
    (
        Case("A,B,3\nA,B,0\nA,A,2\nA,B,0\n"),
        [
            "tail and head are the same place: line 3",
            "the capacity is 0: lines 2, 4",
            "rows are the same, and each counts: line 4 as 2",
        ],
    ),
    # A name of one row that is near to one of others.
    (
        Case("Mill,Uster,3\nMill,Ustr,3\nUster,Zug,4\n", ("Mill", "Zug")),
        ["arcs enter, and none leave, a place that is not a sink: 'Ustr' (line 2); is it 'Uster'?"],
    ),
    (
        Case("A,B,0\n"),
        [
            "the capacity is 0: line 1",
            "no way leads from a source to a sink over arcs that carry anything",
        ],
    ),
    (
        Case("start,stop,2024\nA,B,3\n"),
        [
            f"line 1 is taken for an arc, though no other row has its ends{HINT}",
            "arcs leave, and none enter, a place that is not a source: 'start' (line 1)",
            "arcs enter, and none leave, a place that is not a sink: 'stop' (line 1)",
        ],
    ),
    (
        Case("A,B,3\n" + "".join(f"A,P{number},1\n" for number in range(12))),
        [
            "arcs enter, and none leave, a place that is not a sink: "
            + ", ".join(f"'P{number}' (line {number + 2})" for number in range(10))
            + " and 2 more"
        ],
    ),
]
TERMINALS = "name a source and a sink, as two words or by options such as --source and --sink"
# Words that are refused, and the last line of what is told.
WRONG_WORDS: list[tuple[tuple[str, ...], str]] = [
    (("A",), TERMINALS),
    (("A", "B", "C"), TERMINALS),
    (("A", "B", "--source", "C"), TERMINALS),
    ((), "name a source and a sink"),
    (("--source", "A"), "name a source and a sink"),
    (
        ("A", "B", "--tail", "x", "--head", "x", "--capacity", "y"),
        "two of --tail, --head, --capacity and --name name the same column",
    ),
    (("A", "B", "--encoding", "rot13"), "argument --encoding: not an encoding of text: rot13"),
    (("A", "B", "--scale", "0"), "argument --scale: not a decimal number above 0: 0"),
    (("A", "B", "--scale", "-1"), "argument --scale: not a decimal number above 0: -1"),
    (("A", "B", "--scale", "\uff11"), "argument --scale: not a decimal number above 0: \uff11"),
]
