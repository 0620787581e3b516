"""Makes a case that fails smaller, as long as it fails: its texts are made plain, words, lines and
arcs are left out, and arcs are contracted. Halves of them are tried first, and in the end single
ones, as Zeller and Hildebrandt's delta debugging does it."""

from __future__ import annotations

import re
from collections.abc import Callable

from built import Case

# So many cases are tried for one that fails, at most, which takes some 10 s.
MOST_TRIES = 1500
# Where the lines of a problem, of a solution and of a script name nodes, by their first field.
NODES = {b"a": (1, 2), b"f": (1, 2), b"n": (1,), b"shut": (1,), b"add": (1, 2)}
# The lines of a script that name an arc, in their second field.
NAMING_ARC = b"cap", b"close"
Lines = list[list[bytes]]


class Tries:
    """Tries cases, each once, and no more of them than a bound."""

    def __init__(self, case: Case, fails: Callable[[Case], bool], most: int = MOST_TRIES) -> None:
        self.tried = {case}
        self.fails = fails
        self.most = most

    def fails_anew(self, case: Case) -> bool:
        """Whether a case fails that was not tried before. One that was tried has passed, or was no
        smaller."""
        if case in self.tried or len(self.tried) > self.most:
            return False
        self.tried.add(case)
        return self.fails(case)


def lines_of(text: bytes) -> Lines:
    return [line.split() for line in text.splitlines()]


def text_of(lines: Lines) -> bytes:
    return b"".join(b" ".join(fields) + b"\n" for fields in lines)


def plain(text: bytes) -> bytes:
    """A text with one space between fields, none around them, and no needless zeros."""
    return text_of(
        [[re.sub(rb"^0+(?=\d+$)", b"", field) for field in fields] for fields in lines_of(text)]
    )


def with_texts(case: Case, problem: bytes, text: bytes) -> Case:
    """A case with these texts. Where standard input is the problem, it stays so."""
    return case._replace(problem=problem, input=problem if case.input == case.problem else text)


def places_of_arcs(problem: bytes) -> list[int]:
    """Which lines of a problem are arcs."""
    return [place for place, line in enumerate(problem.splitlines()) if line.startswith(b"a ")]


def with_arcs_renumbered(text: bytes, lost: list[int]) -> bytes:
    """A script whose commands name arcs by the numbers that they have without these ones."""
    lines = text.splitlines(keepends=True)
    for place, line in enumerate(lines):
        fields = line.split()
        if (
            fields[:1]
            and fields[0] in NAMING_ARC
            and re.fullmatch(rb"\d{1,9}", b"".join(fields[1:2]))
        ):
            number = int(fields[1]) - sum(gone < int(fields[1]) for gone in lost)
            lines[place] = b" ".join([fields[0], b"%d" % number, *fields[2:]]) + b"\n"
    return b"".join(lines)


def without_words(case: Case, begin: int, end: int) -> Case:
    return case._replace(words=case.words[:begin] + case.words[end:])


def without_input(case: Case, begin: int, end: int) -> Case:
    lines = case.input.splitlines(keepends=True)
    return case._replace(input=b"".join(lines[:begin] + lines[end:]))


def without_lines(case: Case, begin: int, end: int) -> Case:
    """A case without these lines of the problem, whose problem line counts the arcs as before."""
    lines = case.problem.splitlines(keepends=True)
    return with_texts(case, b"".join(lines[:begin] + lines[end:]), case.input)


def without_counted_lines(case: Case, begin: int, end: int) -> Case:
    """A case without these lines of the problem. The problem line counts as many arcs less, and
    commands name the arcs that are left."""
    lost = [
        number
        for number, place in enumerate(places_of_arcs(case.problem), 1)
        if begin <= place < end
    ]
    less = without_lines(case, begin, end)
    problem = re.sub(
        rb"(?m)^(p max \d+ )(\d+)",
        lambda it: it[1] + b"%d" % max(0, int(it[2]) - len(lost)),
        less.problem,
        count=1,
    )
    return with_texts(less, problem, with_arcs_renumbered(less.input, lost))


def with_one_node(text: bytes, tail: bytes, head: bytes) -> bytes:
    """A text in whose lines the head is the tail."""
    lines = lines_of(text)
    for fields in lines:
        for at in NODES.get(fields[0], ()) if fields else ():
            if fields[at : at + 1] == [head]:
                fields[at] = tail
    return text_of(lines)


def without_contracted(case: Case, begin: int, end: int) -> Case:
    """A case in which these arcs are contracted: each goes, with a line of a solution for it, and
    its ends are one node elsewhere."""
    for place in reversed(places_of_arcs(case.problem)[begin:end]):
        tail, head = [*lines_of(case.problem)[place], b"", b""][1:3]
        case = without_counted_lines(case, place, place + 1)
        text = re.sub(
            rb"(?m)^f %b %b .*\n" % (re.escape(tail), re.escape(head)), b"", case.input, count=1
        )
        case = with_texts(
            case, with_one_node(case.problem, tail, head), with_one_node(text, tail, head)
        )
    return case


# What can be left out of a case: how many of these it has, and what it is without some of them in a
# row.
PARTS: list[tuple[Callable[[Case], int], Callable[[Case, int, int], Case]]] = [
    (lambda case: len(lines_of(case.input)) if case.input != case.problem else 0, without_input),
    (lambda case: len(lines_of(case.problem)), without_counted_lines),
    (lambda case: len(places_of_arcs(case.problem)), without_contracted),
    (lambda case: len(lines_of(case.problem)), without_lines),
    (lambda case: len(case.words), without_words),
]


def with_fewer_parts(
    case: Case,
    count: Callable[[Case], int],
    without: Callable[[Case, int, int], Case],
    tries: Tries,
) -> Case:
    """A case that fails without the parts that it fails without: half of them, and then ever fewer
    in a row. The last go first, since what goes later leaves the numbers of those before it."""
    size = (count(case) + 1) // 2
    while size:
        for begin in reversed(range(0, count(case), size)):
            less = without(case, begin, begin + size)
            if tries.fails_anew(less):
                case = less
        size //= 2
    return case


def reduced(case: Case, fails: Callable[[Case], bool], most: int = MOST_TRIES) -> Case:
    """A case that fails, of which no part can be left out; or so far as that many tries lead."""
    tries = Tries(case, fails, most)
    before = None
    while case != before:
        before = case
        made_plain = with_texts(case, plain(case.problem), plain(case.input))
        if tries.fails_anew(made_plain):
            case = made_plain
        for count, without in PARTS:
            case = with_fewer_parts(case, count, without, tries)
    return case
