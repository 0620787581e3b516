"""Refuses the program of crates/test_calls each request for memory in turn, and each two in a row,
by the preloaded library of tests/faults.c: a vector that is refused room to grow asks again, for
just the room that it needs.

After each call the program tells all that then stands. A call that is refused memory has changed
nothing, and each other call does what the second implementation does. Changes that alter nothing
take so little memory that 200 of them make fewer than 100 requests. What the program writes with
ample memory stands in its file `stdout`; `--write` rewrites it."""

from __future__ import annotations

import os
import re
import subprocess
import tempfile
from collections.abc import Collection
from itertools import count
from typing import Any

import pytest
from commands import CALLS, COMMANDS, variant_of
from conftest import ROOT, shared
from limits import SECONDS
from oracle import changes
from oracle.network import Arc, State
from oracle.session import MOST_KEPT, Session, SolveReply
from oracle.texts import Fault

CRATE = ROOT / "crates" / "test_calls"
BUILT = CRATE / "out" / "test_calls"
STDOUT = CRATE / "stdout"

ARCS = (Arc(1, 2, 3), Arc(1, 3, 2), Arc(2, 3, 5), Arc(2, 4, 2), Arc(3, 4, 3))
START = State(4, 1, 4, ARCS, (0, 0, 0, 0, 0))
ADDITIONS = [f"add 1 4 {cap}" for cap in range(1, 8)]
REFUSED = "refused no memory"
# Whether each solve tells a cut, by the bound of the history.
WANTS_CUT = {MOST_KEPT: True, 1: False, 0: True}
SESSIONS = [(name, bound) for bound in WANTS_CUT for name in ("whole", "delta")]
# The calls of which some run has to be refused memory, by the part of the program's text and the
# word.
GROWING: set[tuple[str | int, ...]] = {
    (*session, word)
    for session in SESSIONS
    for word, it in COMMANDS.items()
    if it.may_want_memory and word != "redo"
} | {
    ("state", "add"),
    ("state", "copy"),
}


def command_of(text: str) -> tuple[Any, ...]:
    word, *rest = text.split()
    return word, *(rest if word == "print" else map(int, rest))


def told_state(state: State) -> list[str]:
    arcs = [
        f"{'closed' if arc.is_closed else 'open'} {arc.tail} {arc.head} {arc.cap} {flow}"
        for arc, flow in zip(state.arcs, state.flows)
    ]
    return [f"value {state.value()}", *arcs]


def told_place(session: Session) -> list[str]:
    return [
        f"past {session.place} future {len(session.states) - 1 - session.place}",
        *told_state(session.present()),
    ]


def answer(session: Session, command: tuple[Any, ...], is_refused: bool) -> str:
    if is_refused and session.may_want_memory(*command):
        return REFUSED
    try:
        reply = session.reply(*command)
    except Fault as fault:
        return f"refused {fault}"
    cut = re.search(rb"^c (cut \d+)$", reply, re.MULTILINE)
    return f"accepted {cut[1].decode()}" if cut else "accepted"


def told_session(name: str, bound: int, refused: Collection[int]) -> list[str]:
    """What is told of a session over the history of this name and bound, of which these commands
    are refused memory."""
    session = Session(START, SolveReply(cut=WANTS_CUT[bound]), bound)
    lines = [f"history {name} {bound}", *told_place(session)]
    for number, text in enumerate(CALLS):
        lines += [
            f"command {variant_of(text)}",
            answer(session, command_of(text), number in refused),
            *told_place(session),
        ]
    return lines


def told_edits(refused: Collection[int], not_copied: Collection[int]) -> list[str]:
    """What is told of a state to which arcs are added, where these additions and these copies are
    refused memory."""
    state = START
    lines = ["state", *told_state(state)]
    for number, text in enumerate(ADDITIONS):
        if number not in refused:
            _, *arc = command_of(text)
            state = changes.add(state, *arc)
        lines += [
            f"command {variant_of(text)}",
            REFUSED if number in refused else "accepted",
            *told_state(state),
        ]
        lines += ["no copy no memory"] if number in not_copied else ["copy", *told_state(state)]
    return lines


def refused_in(part: list[str]) -> tuple[set[int], set[int]]:
    """The numbers of the commands of a part that are refused memory, and of the copies."""
    commands = [number for number, line in enumerate(part) if line.startswith("command ")]
    copies = [line for line in part if line in ("copy", "no copy no memory")]
    return (
        {number for number, line in enumerate(commands) if part[line + 1 : line + 2] == [REFUSED]},
        {number for number, line in enumerate(copies) if line != "copy"},
    )


def parts_of(lines: list[str]) -> list[list[str]]:
    """The parts of the program's text, each with its first line."""
    starts = [
        number
        for number, line in enumerate(lines)
        if line.startswith(("history ", "state", "no history", "no state"))
    ]
    return [lines[start:end] for start, end in zip(starts, starts[1:] + [len(lines)])]


def wanted(lines: list[str]) -> tuple[list[str], set[tuple[str | int, ...]]]:
    """The text that is wanted where these lines were written, and what was refused memory."""
    parts = parts_of(lines)
    if len(parts) != len(SESSIONS) + 1:
        return [], {("not all parts",)}
    told: list[str] = []
    refusals: set[tuple[str | int, ...]] = set()
    for session, part in zip(SESSIONS, parts):
        refused, _ = refused_in(part)
        told += part if part == ["no history"] else told_session(*session, refused)
        refusals |= {(*session, CALLS[number].split()[0]) for number in refused}
    refused, not_copied = refused_in(parts[-1])
    told += parts[-1] if parts[-1] == ["no state"] else told_edits(refused, not_copied)
    refusals |= {("state", "add") for _ in refused} | {("state", "copy") for _ in not_copied}
    return told, refusals


def run(library: str, at: int, row: int, *words: str) -> tuple[int, list[str], bool]:
    """What the program writes where so many requests from this one on are refused, and whether one
    was."""
    with tempfile.NamedTemporaryFile() as calls:
        faults = {
            "FAULT": "memory",
            "FAULT_AT": str(at),
            "FAULT_ROW": str(row),
            "FAULT_CALLS": calls.name,
        }
        ran = subprocess.run(
            [BUILT, *words],
            capture_output=True,
            timeout=SECONDS,
            env={**os.environ, "LD_PRELOAD": library, **faults},
        )
        return ran.returncode, ran.stdout.decode().splitlines(), b"memory" in calls.read()


def ample() -> str:
    lines = [line for session in SESSIONS for line in told_session(*session, ())] + told_edits(
        (), ()
    )
    return "".join(f"{line}\n" for line in lines)


def is_old() -> bool:
    """Whether the program is missing, or a source has changed since it was built."""
    if not BUILT.exists():
        return True
    sources = (
        path for part in ("src", "specs", "proofs") for path in ROOT.glob(f"crates/*/{part}/**/*")
    )
    return any(path.stat().st_mtime > BUILT.stat().st_mtime for path in sources)


@pytest.fixture
def calls_program(tmp_path_factory: pytest.TempPathFactory) -> None:
    """The program of crates/test_calls, which is built where it is missing or older than a source:
    by one worker alone."""
    with shared(tmp_path_factory, "test_calls"):
        if is_old():
            ran = subprocess.run(["rt", "run"], cwd=CRATE, capture_output=True, text=True)
            assert ran.returncode == 0, ran.stderr[-2000:]
            BUILT.touch()


def test_stdout(writes: bool) -> None:
    """The text of crates/test_calls/stdout is that of the second implementation."""
    if writes:
        STDOUT.write_text(ample())
    assert STDOUT.read_text() == ample()


@pytest.mark.seconds(40)
@pytest.mark.usefixtures("calls_program")
@pytest.mark.parametrize("row", [1, 2])
def test_refused(faults: str, row: int) -> None:
    """So many requests in a row are refused, from each on."""
    seen: set[tuple[str | int, ...]] = set()
    for at in count(1):
        status, lines, was_refused = run(faults, at, row)
        told, refusals = wanted(lines)
        assert (status, lines) == (0, told), f"with {row} requests from number {at} on refused"
        assert was_refused or not refusals, f"with {row} requests from number {at} on refused"
        if not was_refused:
            break
        seen |= refusals
    # Each call that grows is refused in some run.
    assert row == 1 or GROWING <= seen


@pytest.mark.usefixtures("calls_program")
def test_many(faults: str) -> None:
    """200 changes that alter nothing make fewer than 100 requests."""
    assert run(faults, 100, 1, "many") == (0, ["past 200"], False)
