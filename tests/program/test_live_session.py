"""Holds sessions over two pipes, and reads each reply before the next line is sent: one that was
worked out by hand, and random ones, whose replies are those of the second implementation."""

from __future__ import annotations

import os
import select
import subprocess
import tempfile
from collections.abc import Iterator
from contextlib import contextmanager
from pathlib import Path

import strategies
from built import PROBLEM, Case
from conftest import BUILT
from hypothesis import settings
from hypothesis import strategies as st
from hypothesis.stateful import RuleBasedStateMachine, initialize, rule
from kept import Found
from limits import SECONDS
from oracle.network import State
from oracle.problem import problem_text
from oracle.session import MOST_KEPT, Session, SolveReply, command_of
from oracle.texts import Fault, written

NETWORK = b"p max 4 5\nn 1 s\nn 4 t\na 1 2 3\na 1 3 2\na 2 3 5\na 2 4 2\na 3 4 3\n"
SOLUTION = b"s 5\nf 1 2 3\nf 1 3 2\nf 2 3 1\nf 2 4 2\nf 3 4 3\n"
TURNS = [
    (b"add 1 4 7\n", b"c add 6 value 0\n"),
    (b"c a comment\n", b""),
    (b"un", b""),
    (b"do\n", b"c undo value 0\n"),
    (b"print problem\n", NETWORK),
    (b"undo\n", b"c refused 5 nothing to undo\n"),
    (b"redo\nundo\n", b"c redo value 0\nc undo value 0\n"),
    (b"solve\n", SOLUTION),
    (b"print flow\n", SOLUTION),
    (b"cap 5 1\n", b"c cap value 3\n"),
    (b"close 1\nundo 2", b"c close value 0\n"),
    (b"\n", b"c undo value 5\n"),
]


class Live:
    """A session that runs, and waits for lines."""

    def __init__(self, *words: str) -> None:
        self.program = subprocess.Popen(
            [BUILT, "session", *words], stdin=subprocess.PIPE, stdout=subprocess.PIPE, bufsize=0
        )
        assert self.program.stdin and self.program.stdout
        self.input, self.output = self.program.stdin, self.program.stdout

    def send(self, line: bytes, length: int) -> bytes:
        """Sends a line, and gives what came of so many bytes in good time."""
        os.write(self.input.fileno(), line)
        reply = b""
        while len(reply) < length and select.select([self.output], [], [], SECONDS)[0]:
            piece = os.read(self.output.fileno(), length - len(reply))
            if not piece:
                break
            reply += piece
        return reply

    def end(self) -> tuple[int, bytes]:
        """Ends the input. Gives the status, and what was written beyond what was read."""
        self.input.close()
        rest = self.output.read()
        return self.program.wait(SECONDS), rest

    def close(self) -> None:
        self.program.kill()
        self.program.wait()
        self.input.close()
        self.output.close()


@contextmanager
def live(*words: str) -> Iterator[Live]:
    session = Live(*words)
    try:
        yield session
    finally:
        session.close()


def test_turns() -> None:
    with live("examples/a.max") as session:
        for line, wanted in TURNS:
            assert session.send(line, len(wanted)) == wanted, line
        assert session.end() == (1, b"")


class LiveSession(RuleBasedStateMachine):
    """A session that is held with any lines, each sent once the reply to the one before has
    come."""

    def __init__(self) -> None:
        super().__init__()
        self.folder = tempfile.TemporaryDirectory()
        self.lines: list[bytes] = []
        self.some_refused = False

    @initialize(
        state=strategies.networks().filter(strategies.fits),
        wanted=st.builds(SolveReply, st.booleans(), st.booleans()),
        bound=st.sampled_from([MOST_KEPT, 0, 1, 2]),
    )
    def begin(self, state: State, wanted: SolveReply, bound: int) -> None:
        self.model = Session(state, wanted, bound)
        self.problem = problem_text(state)
        self.words = ["--cut"] * wanted.cut + ["--brief"] * wanted.brief + ["--history", str(bound)]
        path = Path(self.folder.name) / PROBLEM.decode()
        path.write_bytes(self.problem)
        self.live = Live(*self.words, str(path))

    @rule(choice=strategies.choice)
    def send(self, choice: strategies.Choice) -> None:
        """Sends a line, and compares its reply."""
        line = b" ".join(strategies.line_of(self.model.present(), choice))
        self.lines.append(line + b"\n")
        try:
            command = command_of(line, True)
            wanted = self.model.reply(*command) if command else b""
        except Fault as fault:
            wanted = written("c", "refused", len(self.lines), fault)
            self.some_refused = True
        reply = self.live.send(self.lines[-1], len(wanted))
        assert (
            reply == wanted
        ), f"the last reply is {reply!r}, and wanted is {wanted!r}\n\n    {self.held()}"

    def held(self) -> Found:
        """The session as a case, whose lines are all there before it begins."""
        words = b"session", *map(str.encode, self.words), PROBLEM
        return Found(Case("a live session", words, self.problem, b"".join(self.lines)))

    def teardown(self) -> None:
        if hasattr(self, "live"):
            try:
                assert self.live.end() == (int(self.some_refused), b"")
            finally:
                self.live.close()
        self.folder.cleanup()


TestLive = LiveSession.TestCase
assert settings.default
TestLive.settings = settings(
    max_examples=settings.default.max_examples // 4, stateful_step_count=25
)
