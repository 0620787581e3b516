"""What the program is to say on a terminal of problems, such as other programs and people write
them: rows for tests/program/test_terminal.py, worked out by hand."""

from terminal_texts import ARCS, BOUNDS, HEAD, TEXT, problem, solved

OTHER_PROBLEM = "dmf solves maximum flow, p max NODES ARCS"
FIRSTS = "these begin with c, p, n or a"
ARC_COUNT = "its second number is the number of a lines"

PROBLEMS = [
    solved("plain", TEXT),
    problem(
        "node lines after arcs",
        b"p max 3 2\n" + ARCS + b"n 1 s\nn 3 t\n",
        "line 2: arc before source and sink",
    ),
    problem(
        "a node line between arcs",
        b"p max 3 2\nn 1 s\na 1 2 5\nn 3 t\na 2 3 4\n",
        "line 3: arc before source and sink",
    ),
    solved("tabs and blanks", b"p\tmax   3\t 2 \nn 1\ts\n n 3  t\na\t1 2   5  \na 2 3 4\n"),
    solved("no last line feed", TEXT[:-1]),
    solved("carriage returns", TEXT.replace(b"\n", b"\r\n")),
    problem(
        "a carriage return at the end",
        TEXT.replace(b"\n", b"\r\n")[:-1],
        "line 5: not a number",
        f", field 4: '4\\x0d' is {BOUNDS}; the text ends with a carriage return and no line feed "
        "behind it",
    ),
    problem(
        "carriage returns alone",
        TEXT.replace(b"\n", b"\r"),
        "line 1: wrong number of fields",
        ": lines end with a line feed, and a carriage return stands within this one: tr '\\r' "
        "'\\n'",
    ),
    problem(
        "a byte order mark",
        b"\xef\xbb\xbf" + TEXT,
        "line 1: unknown line",
        ": the text begins with a byte order mark: save it as UTF-8 without one",
    ),
    solved("cHello", b"cHello\n" + TEXT),
    solved("capacity foo", b"capacity foo\n" + TEXT),
    problem(
        "# hello",
        b"# hello\n" + TEXT,
        "line 1: unknown line",
        ", field 1: '#' begins no line of a problem: a comment begins with c",
    ),
    problem(
        "% hello",
        b"%% hello\n" + TEXT,
        "line 1: unknown line",
        ", field 1: '%%' begins no line of a problem: a comment begins with c",
    ),
    problem(
        "p MAX",
        TEXT.replace(b"max", b"MAX"),
        "line 1: not a max problem",
        ", field 2: 'MAX': lower case: max",
    ),
    problem(
        "P max", TEXT.replace(b"p", b"P"), "line 1: unknown line", ", field 1: 'P': lower case: p"
    ),
    problem(
        "p maxflow",
        TEXT.replace(b"max", b"maxflow"),
        "line 1: not a max problem",
        f", field 2: 'maxflow': {OTHER_PROBLEM}",
    ),
    problem(
        "n 1 S",
        TEXT.replace(b"s", b"S"),
        "line 2: neither source nor sink",
        ", field 3: 'S': lower case: s",
    ),
    problem(
        "e",
        TEXT.replace(b"a ", b"e "),
        "line 4: unknown line",
        ", field 1: 'e' begins no line of a problem: an arc is a SRC DST CAP",
    ),
    problem(
        "p edge",
        b"p edge 3 2\ne 1 2\ne 2 3\n",
        "line 1: not a max problem",
        f", field 2: 'edge': {OTHER_PROBLEM}",
    ),
    problem(
        "p min",
        b"p min 3 2\nn 1 5\nn 3 -5\na 1 2 0 5 1\na 2 3 0 4 1\n",
        "line 1: not a max problem",
        f", field 2: 'min': {OTHER_PROBLEM}",
    ),
    problem(
        "p sp",
        b"p sp 3 2\n" + ARCS,
        "line 1: not a max problem",
        f", field 2: 'sp': {OTHER_PROBLEM}",
    ),
    problem(
        "fewer arcs",
        HEAD + b"a 1 2 5\n",
        "line 5: too few arcs",
        f": the problem line says 2 arcs, and the text ends after 1: {ARC_COUNT}",
    ),
    problem(
        "more arcs",
        TEXT + b"a 1 3 1\n",
        "line 6: too many arcs",
        f": the problem line says 2 arcs, and this line has one more: {ARC_COUNT}",
    ),
    problem("no problem line", TEXT[10:], "line 1: problem line expected"),
    problem("nothing", b"", "line 1: problem line expected"),
    problem(
        "two problems",
        TEXT + TEXT,
        "line 6: second problem line",
        ": the problem line is line 1 already: give each problem its own file",
    ),
    problem(
        "two sources",
        b"p max 4 2\nn 1 s\nn 2 s\nn 4 t\na 1 4 5\na 2 4 4\n",
        "line 3: terminal named twice",
        ": a second source, the first is in line 2: join several by a node before them "
        "(docs/FORMATS.md)",
    ),
    problem(
        "two sinks",
        b"p max 4 0\nn 1 s\nn 2 t\nn 4 t\n",
        "line 4: terminal named twice",
        ": a second sink, the first is in line 3: join several by a node behind them "
        "(docs/FORMATS.md)",
    ),
    problem(
        "0 at the end",
        TEXT + b"0\n",
        "line 6: unknown line",
        f", field 1: '0' begins no line of a problem: {FIRSTS}",
    ),
    problem(
        "Ctrl-Z at the end",
        TEXT + b"\x1a",
        "line 6: unknown line",
        ", field 1: '\\x1a' is a control character: take it out of the text",
    ),
    problem(
        "a byte 0",
        TEXT + b"\0",
        "line 6: unknown line",
        ", field 1: '\\x00' is a control character: take it out of the text",
    ),
    problem(
        "UTF-16",
        b"\xff\xfep\0 \0m\0a\0x\0",
        "line 1: unknown line",
        ": the text is UTF-16: save it as UTF-8 without a byte order mark",
    ),
    problem(
        "gzip",
        b"\x1f\x8b\x08\0\0",
        "line 1: unknown line",
        ": the text is compressed by gzip: gunzip -c FILE writes it as it was",
    ),
    problem(
        "zip", b"PK\x03\x04\n", "line 1: unknown line", ": the text is compressed: unpack it first"
    ),
    problem(
        "JSON",
        b'{"nodes": 3}\n',
        "line 1: unknown line",
        ": this looks like JSON or XML: a problem has lines that begin with c, p, n or a",
    ),
    problem(
        "a table",
        b"from,to,capacity\nA,B,5\n",
        "line 1: unknown line",
        ", field 1: 'from,to,capacity' begins no line of a problem: of a table tools/dmf-problem "
        "makes one",
    ),
    solved("a comment in Latin-1", b"c M\xfchle\n" + TEXT),
    problem(
        "a solution",
        b"s 4\nf 1 2 4\n",
        "line 1: unknown line",
        ", field 1: 's' begins a line of a solution, and a problem is expected here",
    ),
    problem(
        "p asn",
        b"p asn 4 2\nn 1\nn 2\na 1 3 5\n",
        "line 1: not a max problem",
        f", field 2: 'asn': {OTHER_PROBLEM}",
    ),
    problem(
        "n 1 x",
        TEXT.replace(b"1 s", b"1 x"),
        "line 2: neither source nor sink",
        ", field 3: 'x' is no letter of a node line: s names the source, t the sink",
    ),
    problem(
        "n 1",
        TEXT.replace(b"1 s", b"1"),
        "line 2: wrong number of fields",
        ": a terminal has a number and a letter (n ID s or n ID t, 3 fields); found 2 fields",
    ),
    problem(
        "the sink at the source",
        TEXT.replace(b"3 t", b"1 t"),
        "line 3: source and sink are the same",
        ", field 2: '1' is the other terminal too: source and sink are two nodes",
    ),
    problem(
        "no sink",
        b"p max 2 0\nn 1 s\n",
        "line 3: source or sink missing",
        ": no line n ID t names the sink",
    ),
    problem(
        "no source",
        b"p max 2 0\nn 1 t\n",
        "line 3: source or sink missing",
        ": no line n ID s names the source",
    ),
    problem("neither of them", b"p max 2 0\n", "line 2: source or sink missing"),
]
