"""Brief replies to solves (`dmf session --brief`), as the tools read them: worked rows of dmf-names
and dmf-dot, and random sessions whose follower is compared with the second implementation's whole
states."""

from __future__ import annotations

import io
import subprocess
from pathlib import Path
from random import Random

import pytest
import random_cases
import random_scripts
from dmf.text.problem_text import read_problem
from dmf.text.session_replies import CutReply, SolutionReply, TranscriptFault
from dmf.text.transcript import TranscriptReader
from limits import SECONDS
from oracle import problem as oracle_problem
from oracle import session, texts
from oracle.network import State, smallest_side

ROOT = Path(__file__).resolve().parents[2]
PROBLEM = (
    b"c node 1 Lake\nc node 3 Sea\nc arc 2 Canal\np max 3 3\nn 1 s\nn 3 t\na 1 2 5\na 2 3 4\na 1 3 "
    b"2\n"
)
FLOWS = b"f 1 2 4\nf 2 3 4\nf 1 3 2\n"
CUT = b"c cut 6\nc side 1\nc side 2\n"
TOLD_CUT = b"limit 6\n  source's side: Lake, 2\n  2 Canal, 2 -> Sea: 4\n  3 Lake -> Sea: 2\n"
TOLD_FLOWS = b"  1 Lake -> 2: 4 of 5\n  2 Canal, 2 -> Sea: 4 of 4\n  3 Lake -> Sea: 2 of 2\n"
TABLE = (
    b"number,name,from,to,flow,capacity,full,in cut\n"
    b"1,,Lake,2,4,5,no,no\n2,Canal,2,Sea,4,4,yes,yes\n3,,Lake,Sea,2,2,yes,yes\n"
)
# Commands (None where none are given), replies, and what dmf-names tells of them.
TOLD = {
    "a solve": (b"solve\n", b"c solve value 6\n", b"value 6\n"),
    "a solve whose commands are not given": (None, b"c solve value 6\n", b"value 6\n"),
    "the flows where they are printed": (
        b"solve\nprint flow\n",
        b"c solve value 6\ns 6\n" + FLOWS,
        b"value 6\nvalue 6\n" + TOLD_FLOWS,
    ),
    "the cut of each solve": (b"solve\n", b"c solve value 6\n" + CUT, b"value 6\n" + TOLD_CUT),
    "a transcript": (
        None,
        b"solve\nc solve value 6\nprint cut\n" + CUT,
        b"solve\nvalue 6\nprint cut\n" + TOLD_CUT,
    ),
    "a change between two solves": (
        b"solve\ncap 3 0\nsolve\nundo 2\nprint flow\n",
        b"c solve value 6\nc cap value 4\nc solve value 4\nc undo value 6\ns 6\n" + FLOWS,
        b"value 6\nc cap value 4\nvalue 4\nc undo value 6\nvalue 6\n" + TOLD_FLOWS,
    ),
}
# What does not fit, and what is said of it.
ODD = {
    "a whole reply after a brief one": (
        b"solve\nsolve\n",
        b"c solve value 6\ns 6\n" + FLOWS,
        b"line 2 of the answer: brief and whole",
    ),
    "a brief reply after a whole one": (
        b"solve\nsolve\n",
        b"s 6\n" + FLOWS + b"c solve value 6\n",
        b"line 5 of the answer: brief and whole",
    ),
    "a brief reply to another command": (
        b"cap 1 2\n",
        b"c solve value 6\n",
        b"line 1 of the answer: this does not answer `cap 1 2`",
    ),
    "a solve that takes flow off": (
        b"solve\nsolve\n",
        b"c solve value 6\nc solve value 5\n",
        b"line 2 of the answer: value differs",
    ),
    "a printed flow of another value": (
        None,
        b"c solve value 6\ns 5\nf 1 2 4\nf 2 3 4\nf 1 3 1\n",
        b"line 5 of the answer: value differs: it is 6 here",
    ),
    "a missing cut": (
        b"solve\nsolve\n",
        b"c solve value 6\n" + CUT + b"c solve value 6\n",
        b"the cut of this solve is missing",
    ),
}


def ran(
    tool: str, folder: Path, commands: bytes | None, replies: bytes, *words: str
) -> subprocess.CompletedProcess[bytes]:
    """A tool on replies, and on commands where they are given."""
    (folder / "problem").write_bytes(PROBLEM)
    given = []
    if commands is not None:
        (folder / "commands").write_bytes(commands)
        given = ["--commands", "commands"]
    return subprocess.run(
        [ROOT / "tools" / tool, "problem", *given, *words],
        cwd=folder,
        input=replies,
        capture_output=True,
        timeout=SECONDS,
    )


@pytest.mark.parametrize("name", TOLD)
def test_told(name: str, tmp_path: Path) -> None:
    commands, replies, wanted = TOLD[name]
    got = ran("dmf-names", tmp_path, commands, replies)
    assert (got.returncode, got.stdout, got.stderr) == (0, wanted, b"")


@pytest.mark.parametrize("name", ODD)
def test_odd(name: str, tmp_path: Path) -> None:
    commands, replies, wanted = ODD[name]
    got = ran("dmf-names", tmp_path, commands, replies)
    assert got.returncode != 0 and wanted in got.stderr, got.stderr


def test_table(tmp_path: Path) -> None:
    """A table needs the flows of the last solve, and never shows those of an earlier one."""
    got = ran(
        "dmf-names",
        tmp_path,
        b"solve\nprint flow\nprint cut\n",
        b"c solve value 6\ns 6\n" + FLOWS + CUT,
        "--csv",
    )
    assert (got.returncode, got.stdout) == (0, TABLE)
    commands, replies = (
        b"solve\nprint flow\ncap 3 0\nsolve\n",
        b"c solve value 6\ns 6\n" + FLOWS + b"c cap value 4\nc solve value 4\n",
    )
    for given in commands, None:
        got = ran("dmf-names", tmp_path, given, replies, "--csv")
        assert got.returncode != 0 and got.stdout == b"", given
    assert (
        b"`print flow` after the last solve prints them"
        in ran("dmf-names", tmp_path, commands, replies, "--csv").stderr
    )


def test_picture(tmp_path: Path) -> None:
    """The cut is drawn; flows are drawn where they were printed, and else the picture says that
    they are not told."""
    got = ran("dmf-dot", tmp_path, b"solve\n", b"c solve value 6\n" + CUT, "-")
    assert (
        got.returncode == 0
        and b"the flows of the last solve were not printed; `print flow` prints them" in got.stderr
    )
    assert b'1 -> 2 [label="5"]' in got.stdout and b"/" not in got.stdout
    brief = ran(
        "dmf-dot",
        tmp_path,
        b"solve\nprint flow\nprint cut\n",
        b"c solve value 6\ns 6\n" + FLOWS + CUT,
        "-",
    )
    whole = ran("dmf-dot", tmp_path, b"solve\nprint cut\n", b"s 6\n" + FLOWS + CUT, "-")
    assert (brief.returncode, brief.stderr, brief.stdout) == (0, b"", whole.stdout)


def is_told(event: SolutionReply | CutReply, state: State, is_brief: bool) -> bool:
    """Whether an event is what the second implementation has in this state."""
    if isinstance(event, CutReply):
        return (event.side, event.capacity) == smallest_side(state)
    flows = [] if is_brief else [flow for _, flow in state.open_arcs()]
    return (event.value, event.is_told, list(event.flows)) == (state.value(), not is_brief, flows)


@pytest.mark.parametrize("seed", range(4))
def test_random_sessions(seed: int) -> None:
    """Each event of a brief session is that of the whole state, whether the commands are given or
    stand among the replies."""
    random = Random(seed)
    solves = 0
    for _ in range(12):
        state = random_cases.network(random, 12)
        if state.source == state.sink or state.capacity_sum() > texts.LARGEST:
            continue
        commands = [b" ".join(line) + b"\n" for line in random_scripts.command_lines(state, random)]
        wanted = session.SolveReply(cut=random.random() < 0.5, brief=True)
        for is_given in True, False:
            solves += followed(state, commands, wanted, is_given)
    assert solves > 10


def followed(
    state: State, commands: list[bytes], wanted: session.SolveReply, is_given: bool
) -> int:
    """Follows a session, judges each event, and counts the solves."""
    held, solves = session.Session(state, wanted), 0
    follower = TranscriptReader(
        read_problem(oracle_problem.problem_text(state)), iter(commands) if is_given else None
    )
    for place, line in enumerate(commands, 1):
        reply = held.answer(place, line)
        events = [] if is_given else follower.take(line)
        for reply_line in io.BytesIO(reply):
            events += follower.take(reply_line)
        is_brief = reply.startswith(b"c solve value ")
        solves += is_brief
        told = [event for event in events if isinstance(event, (SolutionReply, CutReply))]
        assert len(told) == sum(
            it.startswith((b"s ", b"c cut ", b"c solve value ")) for it in io.BytesIO(reply)
        ), line
        assert all(is_told(event, held.present(), is_brief) for event in told), (line, told)
        assert [tuple(arc) for arc in follower.timeline.arcs] == [
            tuple(arc) for arc in held.present().arcs
        ]
        assert follower.timeline.value == held.present().value()
        if is_brief:
            assert follower.solution is None
    assert not follower.end()
    return solves


def test_fault_is_located() -> None:
    follower = TranscriptReader(read_problem(PROBLEM), iter([b"print cut\n"]))
    with pytest.raises(TranscriptFault, match="this does not answer `print cut`"):
        follower.take(b"c solve value 6\n")
