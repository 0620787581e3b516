"""Tests the reader of texts and the follower of sessions that the tools in Python stand on: against
rows that were worked out by hand, and on random texts and sessions against the second
implementation, which keeps whole states."""

from __future__ import annotations

from collections.abc import Callable, Iterable, Mapping
from dataclasses import dataclass
from random import Random
from typing import Any

import pytest
import random_cases
import random_scripts
import random_texts
from dmf.text.lexical import Fault, display, fields, lines, read_number
from dmf.text.problem_text import read_problem
from dmf.text.session_replies import CutReply, Event, PrintedReply, SolutionReply, TranscriptFault
from dmf.text.spelling import read_names
from dmf.text.transcript import TranscriptReader
from oracle import problem as oracle_problem
from oracle import session, texts
from oracle.network import State, smallest_side
from worked_forms import Worked
from worked_once import ONCE
from worked_sessions import HISTORIES, SESSIONS

# Bytes that end no line and part no fields, whatever Unicode or a terminal takes them for: CR, VT,
# FF, FS, NEL and LS.
ODD_ENDS = [
    b"\r",
    b"\x0b",
    b"\x0c",
    b"\x1c",
    b"\x1d",
    b"\x1e",
    b"\x85",
    b"\0",
    *map(str.encode, "\x85\u2028\u2029"),
]
LINES = {
    b"": [],
    b"\n": [b""],
    b"\r\n": [b""],
    b"a": [b"a"],
    b"a\n": [b"a"],
    b"a\n\nb": [b"a", b"", b"b"],
    b"a\r\nb\r": [b"a", b"b\r"],
    b"a\r\r\n": [b"a\r"],
    b"\r": [b"\r"],
    **{b"a" + odd + b"b\nc": [b"a" + odd + b"b", b"c"] for odd in ODD_ENDS},
}
FIELDS = {
    b"": [],
    b" \t ": [],
    b"\ta  b\t c ": [b"a", b"b", b"c"],
    **{b"a" + odd + b"b c": [b"a" + odd + b"b", b"c"] for odd in ODD_ENDS},
}
NOT, LARGE = "not a number", "number too large"
NUMBERS = {
    b"0": 0,
    b"007": 7,
    b"18446744073709551615": 2**64 - 1,
    b"18446744073709551616": LARGE,
    b"99999999999999999999": LARGE,
    b"0" * 5000: 0,
    b"0" * 5000 + b"18446744073709551615": 2**64 - 1,
    b"0" * 5000 + b"18446744073709551616": LARGE,
    b"9" * 5000: LARGE,
    b"9" * 200_000: LARGE,
    b"9" * 200_000 + b"x": NOT,
    "²".encode(): NOT,
    "٣".encode(): NOT,
    b"": NOT,
    **dict.fromkeys([b"-1", b"+1", b"1.0", b"1_0", b"0x1", b"1e3", b"1\r", b"1\0", b"\xff"], NOT),
}
NAMES = {
    b"c node 3 Reservoir\nc arc 5 Mill Lane": ({3: "Reservoir"}, {5: "Mill Lane"}),
    b" \tc\tnode  03 \t a  b \t\r\n": ({3: "a  b"}, {}),
    # The last of two names counts.
    b"c node 1 a\nc node 1 b\n": ({1: "b"}, {}),
    b"c node 1 a\r": ({1: "a\r"}, {}),
    b"c node 1 \xc3\xa4\xff\n": ({1: "ä\ufffd"}, {}),
    # Comments of another form.
    b"cnode 1 a\nc nodes 1 a\nc node x a\nc node 1x a\nc node 1\nc node 1 \t\nc node\nc Node 1 "
    b"a\n": (
        {},
        {},
    ),
    b"x c node 1 a\nc c node 1 a\n": ({}, {}),
    b"c node -1 a\nc node 1\r\nc node 1\r a\nc node \xc2\xb2 a\nc node "
    + b"9" * 5000
    + b" a\nc node 1": ({}, {}),
    # A name ends at the line feed alone, and no other byte begins a line.
    **{b"c old" + odd + b"c node 1 a\n": ({}, {}) for odd in ODD_ENDS},
    **{
        b"c node 1 a"
        + odd
        + b"c node 2 b\n": ({1: (b"a" + odd + b"c node 2 b").decode(errors="replace")}, {})
        for odd in ODD_ENDS
    },
}
SHOWN = {
    "Café 水 \U0001f469\u200d\U0001f692": "Café 水 \U0001f469\u200d\U0001f692",
    "\x1b[31mred\x07": "\\x1b[31mred\\x07",
    "a\nb\r\tc\0": "a\\x0ab\\x0d\\x09c\\x00",
    "\x7f\x80\x85\x9b\xa0": "\\x7f\\x80\\x85\\x9b\xa0",
    "\u202eabc\u2069\u2028\u200f": "\\u202eabc\\u2069\\u2028\\u200f",
    "\ud800": "\\ud800",
}
FUNCTIONS: list[tuple[Callable[..., Any], Mapping[Any, Any]]] = [
    (lines, LINES),
    (fields, FIELDS),
    (read_number, NUMBERS),
    (read_names, NAMES),
    (display, SHOWN),
]
ROWS = [(function, given, wanted) for function, rows in FUNCTIONS for given, wanted in rows.items()]
# The random cases: so many in a test, and so many tests.
PROBLEMS, SCRIPTS, ODD_REPLIES, BATCHES = 300, 30, 60, 10
batches = pytest.mark.parametrize("batch", range(BATCHES))


def outcome(function: Callable[..., Any], given: bytes) -> Any:
    """What a function gives, or the text of its fault."""
    try:
        return function(given)
    except (Fault, texts.Fault) as fault:
        return str(fault)


def row_name(row: Any) -> str:
    return str(row.__name__) if callable(row) else repr(row)[:30]


@pytest.mark.parametrize(("function", "given", "wanted"), ROWS, ids=row_name)
def test_rows(function: Callable[..., Any], given: Any, wanted: Any) -> None:
    assert outcome(function, given) == wanted


def read(text: bytes) -> tuple[Any, ...]:
    problem = read_problem(text)
    return problem.node_count, problem.source, problem.sink, problem.arcs


def read_by_oracle(text: bytes) -> tuple[Any, ...]:
    state = oracle_problem.read_problem(text)
    return state.nodes, state.source, state.sink, [arc[:3] for arc in state.arcs]


@pytest.mark.parametrize(
    "worked", [pytest.param(it, id=it.case.name) for it in ONCE if b"solve" in it.case.words]
)
def test_worked_problems(worked: Worked) -> None:
    told = outcome(read, worked.case.problem)
    assert worked.wanted.status in (0, 3)
    assert (
        worked.wanted.told == f"dmf: {told}\n".encode()
        if worked.wanted.status
        else not isinstance(told, str)
    )


@batches
def test_problems(batch: int) -> None:
    random = Random(f"problems/{batch}")
    for _ in range(PROBLEMS):
        network = random_cases.network(random, 10)
        text = random_texts.text_of(random_cases.problem_lines(network, random), random, b"cx", 0.7)
        assert outcome(read, text) == outcome(read_by_oracle, text), text


@dataclass
class Told:
    """What was told of the reply to one command, and what the second implementation has there."""

    follower: TranscriptReader
    events: list[Event]
    state: State

    def judge(self) -> None:
        timeline, state = self.follower.timeline, self.state
        assert self.follower.is_known
        assert [tuple(arc) for arc in timeline.arcs] == [tuple(arc) for arc in state.arcs]
        assert (timeline.value, timeline.capacity_sum) == (state.value(), state.capacity_sum())
        for event in self.events:
            self.judge_event(event)

    def judge_event(self, event: Event) -> None:
        numbers = [at for at, arc in enumerate(self.state.arcs, 1) if not arc.is_closed]
        if isinstance(event, SolutionReply):
            assert (event.is_told, event.value, list(event.numbers)) == (
                True,
                self.state.value(),
                numbers,
            )
            assert list(event.flows) == [flow for _, flow in self.state.open_arcs()]
        elif isinstance(event, PrintedReply):
            assert event.numbers == numbers
        elif isinstance(event, CutReply):
            side, capacity = smallest_side(self.state)
            crossing = [
                at
                for at in numbers
                if self.state.arcs[at - 1].tail in side and self.state.arcs[at - 1].head not in side
            ]
            assert (event.side, event.capacity, event.arcs) == (side, capacity, crossing)


def follow(
    state: State, commands: list[bytes], wanted: session.SolveReply, bound: int, is_given: bool
) -> None:
    """Follows a session, and judges what is known after each command. Every reply is told whole
    before the next one begins."""
    held = session.Session(state, wanted, bound)
    follower = TranscriptReader(
        read_problem(oracle_problem.problem_text(state)), iter(commands) if is_given else None
    )
    for place, line in enumerate(commands, 1):
        reply = held.answer(place, line)
        events = [] if is_given else follower.take(line)
        told = lines_with_ends(reply)
        for reply_line in told:
            events += follower.take(reply_line)
        whole = sum(isinstance(event, (SolutionReply, CutReply, PrintedReply)) for event in events)
        assert whole == sum(
            reply_line.startswith((b"s ", b"c cut ", b"p max ")) for reply_line in told
        ), line
        Told(follower, events, held.present()).judge()
    assert not follower.end()


def scripted(random: Random, most_nodes: int) -> tuple[State, list[list[bytes]]]:
    """A random network that dmf takes, and the lines of a script for it."""
    while True:
        state = random_cases.network(random, most_nodes)
        if state.source != state.sink and state.capacity_sum() <= texts.LARGEST:
            return state, random_scripts.command_lines(state, random)


@batches
def test_sessions(batch: int) -> None:
    """Random sessions, whose commands are given, or stand among the replies as a terminal shows
    them."""
    random = Random(f"followed sessions/{batch}")
    for _ in range(SCRIPTS):
        state, script = scripted(random, 12)
        commands = [b" ".join(line) + b"\n" for line in script]
        wanted, bound = session.SolveReply(cut=random.random() < 0.5), random.choice(
            [0, 1, 3, session.MOST_KEPT]
        )
        for is_given in True, False:
            follow(state, commands, wanted, bound, is_given)


def replying() -> list[Worked]:
    """Worked sessions that reply something."""
    return [it for it in SESSIONS + HISTORIES if it.wanted.written]


@pytest.mark.parametrize("worked", [pytest.param(it, id=it.case.name) for it in replying()])
def test_worked_sessions(worked: Worked) -> None:
    """A session fits its commands, and does not fit once a command or a reply is left out."""
    assert isinstance(worked.wanted.written, bytes)
    commands, replies = lines_with_ends(worked.case.input), lines_with_ends(worked.wanted.written)
    assert fault_of(worked.case.problem, commands, replies) is None
    assert fault_of(worked.case.problem, commands, replies[:-1])
    assert fault_of(worked.case.problem, commands, replies + replies[:1])


@batches
def test_odd_replies(batch: int) -> None:
    """Replies of random sessions with a fault put into them, and any commands for them: what does
    not fit is a fault of the transcript, and nothing else is raised. Most do not fit."""
    random = Random(f"odd replies/{batch}")
    faults = 0
    for _ in range(ODD_REPLIES):
        state, lines_of_script = scripted(random, 6)
        script = random_texts.plain_text(lines_of_script[:30])
        replies, _ = session.run_lines(
            state, script, session.SolveReply(cut=random.random() < 0.5), session.Refusals()
        )
        odd = random_texts.text_of([fields(line) for line in lines(replies)], random, b"cx", 1)
        commands = random.choice([None, lines_with_ends(script)])
        faults += (
            fault_of(oracle_problem.problem_text(state), commands, lines_with_ends(odd)) is not None
        )
    assert faults > ODD_REPLIES / 2


def lines_with_ends(text: bytes) -> list[bytes]:
    pieces = text.split(b"\n")
    return [piece + b"\n" for piece in pieces[:-1]] + [rest for rest in pieces[-1:] if rest]


def fault_of(problem: bytes, commands: Iterable[bytes] | None, replies: list[bytes]) -> str | None:
    """The fault of a session, if it has one."""
    follower = TranscriptReader(read_problem(problem), None if commands is None else iter(commands))
    try:
        for line in replies:
            follower.take(line)
        follower.end()
    except TranscriptFault as fault:
        return f"{fault.text}, {fault}"
    return None
