"""Random problems, scripts, solutions and words for hypothesis, right ones and faulty ones. Each
begins with what is plain, so that a case that fails is shrunk to little."""

from __future__ import annotations

from collections.abc import Callable, Sequence
from typing import Union

from built import PROBLEM, Case
from commands import ARC, CAPACITY, COMMANDS, NODE, PRINTED, STEPS, WHAT, Command
from hypothesis import strategies as st
from odd_texts import DRAWN_COMMANDS, ODD_BYTES, ODD_FIELDS, ODD_LINES
from oracle.network import Arc, State
from oracle.session import Session, SolveReply
from oracle.texts import LARGEST, Fault
from random_scripts import AFTER_ADDITION, CHAINED
from random_words import ODD_WORDS

Lines = list[list[bytes]]

places = st.integers(0, 40)
capacities = st.one_of(
    st.integers(0, 9),
    st.integers(0, 9),
    st.sampled_from([2**31, 2**32, 2**63, LARGEST // 7, LARGEST]),
)


@st.composite
def networks(draw: st.DrawFn, most_nodes: int = 8, most_arcs: int = 16) -> State:
    """A network without flow. The sum of its capacities may be past 64 bits."""
    nodes = draw(st.integers(2, most_nodes))
    source = draw(st.integers(1, nodes))
    sink = draw(st.sampled_from([node for node in range(1, nodes + 1) if node != source]))
    drawn = draw(st.lists(st.tuples(places, places, capacities), max_size=most_arcs))
    arcs = tuple(
        Arc(tail % nodes + 1, head % nodes + 1, capacity) for tail, head, capacity in drawn
    )
    return State(nodes, source, sink, arcs, (0,) * len(arcs))


def fits(state: State) -> bool:
    return state.capacity_sum() <= LARGEST


def line(*fields: object) -> list[bytes]:
    return [str(field).encode() for field in fields]


def problem_lines(state: State) -> Lines:
    head = [
        line("p", "max", state.nodes, len(state.arcs)),
        line("n", state.source, "s"),
        line("n", state.sink, "t"),
    ]
    return head + [line("a", *arc[:3]) for arc in state.arcs]


def command_line(
    state: State, command: Command, places: Sequence[int], capacity: int
) -> list[bytes]:
    """A line of a command on a network, or on one with a few arcs more: its fields may be past
    these, and at fault."""
    first, second = places
    values: dict[str, object] = {
        ARC: first % (len(state.arcs) + 3),
        CAPACITY: capacity,
        WHAT: [*PRINTED][first % len(PRINTED)],
    }
    fields: list[object] = []
    for place, kind in enumerate(command.kinds):
        if kind == NODE:
            fields.append(places[place] % (state.nodes + 2))
        elif kind != STEPS:
            fields.append(values[kind])
        elif first % 5:
            fields.append(first % 5 - 1)
    return line(command.word, *fields)


# What a line of a script is made of. Solves come often, and lines that are refused for their form
# seldom.
KINDS: list[Union[Command, list[bytes]]] = [
    COMMANDS["solve"],
    *COMMANDS.values(),
    *COMMANDS.values(),
    COMMANDS["solve"],
    *DRAWN_COMMANDS,
]
Choice = tuple[Union[Command, list[bytes]], tuple[int, int], int]
choice: st.SearchStrategy[Choice] = st.tuples(
    st.sampled_from(KINDS), st.tuples(places, places), capacities
)
choices = st.lists(choice, max_size=16)
# Changes without a solve between: first a few, so that a long chain is shrunk to them where they
# do.
change: st.SearchStrategy[Choice] = st.tuples(
    st.sampled_from(CHAINED), st.tuples(places, places), capacities
)
chains = st.one_of(st.lists(change, max_size=3), st.lists(change, min_size=8, max_size=24))
SELDOM = st.sampled_from([False] * 5 + [True])


def line_of(state: State, chosen: Choice) -> list[bytes]:
    kind, at, capacity = chosen
    return command_line(state, kind, at, capacity) if isinstance(kind, Command) else kind


@st.composite
def scripts(draw: st.DrawFn, state: State) -> Lines:
    """Any lines, and seldom a chain of changes between two solves before them."""
    lines = [line_of(state, chosen) for chosen in draw(choices)]
    if draw(SELDOM):
        chain = [line_of(state, chosen) for chosen in draw(chains)]
        lines = [
            line("solve"),
            *chain,
            *draw(st.sampled_from(AFTER_ADDITION)),
            line("solve"),
            *lines,
        ]
    return lines


changes = st.lists(
    st.one_of(st.just(("solve",)), st.tuples(st.just("cap"), st.integers(1, 9), st.integers(0, 5))),
    max_size=6,
)


@st.composite
def solutions(draw: st.DrawFn, state: State) -> Lines:
    """The lines of a solution of what a session makes of a network. Of pairs without flow some are
    left out."""
    session = Session(state, SolveReply())
    for fields in draw(changes):
        try:
            session.reply(*fields)
        except Fault:
            continue
    state = session.present()
    flows = [
        line("f", arc.tail, arc.head, flow)
        for arc, flow in state.open_arcs()
        if flow or draw(st.booleans())
    ]
    return [line("s", state.value()), *flows]


def dropped(lines: Lines, at: int, other: int) -> Lines:
    return lines[:at] + lines[at + 1 :]


def doubled(lines: Lines, at: int, other: int) -> Lines:
    return lines[: at + 1] + lines[at:]


def ended(lines: Lines, at: int, other: int) -> Lines:
    return lines[:at]


def swapped(lines: Lines, at: int, other: int) -> Lines:
    other %= len(lines)
    return [lines[{at: other, other: at}.get(place, place)] for place in range(len(lines))]


def with_line(lines: Lines, at: int, other: int) -> Lines:
    return lines[:at] + [ODD_LINES[other % len(ODD_LINES)]] + lines[at:]


def shortened(lines: Lines, at: int, other: int) -> Lines:
    return lines[:at] + [lines[at][:-1]] + lines[at + 1 :]


def with_field(lines: Lines, at: int, other: int) -> Lines:
    fields, odd = list(lines[at]), ODD_FIELDS[other % len(ODD_FIELDS)]
    place = other % (len(fields) + 1)
    return lines[:at] + [fields[:place] + [odd] + fields[place + 1 :]] + lines[at + 1 :]


EDITS: Sequence[Callable[[Lines, int, int], Lines]] = (
    dropped,
    doubled,
    ended,
    swapped,
    with_line,
    shortened,
    with_field,
)
no_edits: list[tuple[Callable[[Lines, int, int], Lines], int, int]] = []
edits = st.one_of(
    st.just(no_edits), st.lists(st.tuples(st.sampled_from(EDITS), places, places), max_size=2)
)
GAPS = st.sampled_from([b" ", b" ", b"\t", b"  \t"])
ENDS = st.sampled_from([b"\n", b"\n", b"\r\n", b" \n", b"\n%b x\n\n", b"\r\r\n"])
odd_bytes = st.sampled_from(ODD_BYTES)


@st.composite
def texts(draw: st.DrawFn, lines: Lines, comment: bytes) -> bytes:
    """The text of lines, as they are or with a few of them changed, and plain or loose."""
    for edit, at, other in draw(edits):
        lines = edit(lines, at % len(lines), other) if lines else lines
    gap, end = draw(GAPS), draw(ENDS).replace(b"%b", comment)
    text = b"".join(gap.join(fields) + end for fields in lines)
    if draw(SELDOM):
        text = text.removesuffix(b"\n")
    if draw(SELDOM):
        at = draw(st.integers(0, len(text)))
        text = text[:at] + draw(odd_bytes) + text[at:]
    return text


CUTS = st.sampled_from([(), (b"--cut",)])
BRIEF = st.sampled_from([(), (), (b"--brief",)])
ANY = st.sampled_from([(), (b"--any",)])
NODES = st.sampled_from([(), (b"--nodes",)])
WORST: st.SearchStrategy[tuple[bytes, ...]] = st.sampled_from(
    [(b"--worst", b"0"), (b"--worst", b"1"), (b"--worst", b"3")]
)
PAIRS: st.SearchStrategy[tuple[bytes, ...]] = WORST.map(lambda worst: (b"--pairs", *worst))
SECOND: st.SearchStrategy[tuple[bytes, ...]] = st.just((b"--second",))
VALUED = st.one_of(
    NODES, st.tuples(NODES, WORST).map(lambda words: words[0] + words[1]), PAIRS, SECOND
)
BOUNDS: st.SearchStrategy[tuple[bytes, ...]] = st.sampled_from(
    [(), (), (b"--history", b"0"), (b"--history", b"1"), (b"--history", b"2")]
)


@st.composite
def solves(draw: st.DrawFn) -> Case:
    text = draw(texts(problem_lines(draw(networks())), b"cx"))
    return Case("a solve", (b"solve", *draw(ANY), *draw(BRIEF), *draw(CUTS)), text, text)


@st.composite
def values(draw: st.DrawFn) -> Case:
    """What is left without each arc, or without each node, or without the worst, also of pairs, or
    with second arcs."""
    text = draw(texts(problem_lines(draw(networks().filter(fits))), b"cx"))
    return Case("values", (b"vital", *draw(VALUED)), text, text)


@st.composite
def sessions(draw: st.DrawFn) -> Case:
    state = draw(networks().filter(fits))
    problem = b"".join(b" ".join(fields) + b"\n" for fields in problem_lines(state))
    words = (b"session", *draw(CUTS), *draw(BRIEF), *draw(BOUNDS), PROBLEM)
    return Case("a session", words, problem, draw(texts(draw(scripts(state)), b"c")))


@st.composite
def checks(draw: st.DrawFn) -> Case:
    state = draw(networks().filter(fits))
    problem = b"".join(b" ".join(fields) + b"\n" for fields in problem_lines(state))
    return Case("a check", (b"check", PROBLEM), problem, draw(texts(draw(solutions(state)), b"cx")))


@st.composite
def any_words(draw: st.DrawFn) -> Case:
    problem = b"p max 2 1\nn 1 s\nn 2 t\na 1 2 3\n"
    return Case(
        "any words", tuple(draw(st.lists(st.sampled_from(ODD_WORDS), max_size=4))), problem, problem
    )
