"""Lets each read and each write of a run fail in turn, by the preloaded library of tests/faults.c:
with an error, as a call that was interrupted, and as a write that takes no byte. Reads and writes
are cut short too.

From the calls of a run it is seen in which order it reads and writes. A session has written the
replies to all lines that it was given whole before it reads on; other runs write nothing before all
is read; and after a call that failed none reads. Where no call fails and none is cut short, each
reply is one write, and so is all that another run writes."""

from __future__ import annotations

import errno
from collections.abc import Iterator
from itertools import count
from typing import NamedTuple

import built
import pytest
from built import PROBLEM, Call, Case, Run
from oracle.program import Outcome, ended_lines, told
from worked import CHECKS, SOLVES, VITAL, WORKED
from worked_forms import text
from worked_sessions import SESSIONS

INPUT, OUTPUT = 0, 1
LINE_FEED = 10
# A solution that is longer than the program's buffer of 1,024 bytes, so that a write fails before
# the flush, and a session with such replies.
WIDE, PAIRED = (
    text(f"p max 2 {count} / n 1 s / n 2 t" + " / a 1 2 10000000000000000" * count)
    for count in (100, 12)
)
# As many nodes in a row, whose values are as long.
ROWED = text(
    "p max 200 199 / n 1 s / n 200 t" + "".join(f" / a {v} {v + 1} 9" for v in range(1, 200))
)
LONG = [
    Case("a long solution", (b"solve", b"--cut"), WIDE, WIDE),
    Case("many values", (b"vital",), WIDE, WIDE),
    Case("many values of nodes", (b"vital", b"--nodes"), ROWED, ROWED),
    Case("many of the worst", (b"vital", b"--worst", b"1000"), WIDE, WIDE),
    Case("many pairs", (b"vital", b"--pairs", b"--worst", b"1000"), PAIRED, PAIRED),
    Case("long replies", (b"session", PROBLEM), WIDE, text("solve / print problem / print cut")),
]
WORDS = [
    Case("the help", (b"--help",), b"", b""),
    Case("the version", (b"--version",), b"", b""),
    Case("a word that is not taken", (b"wash",), b"", b""),
]
# The most bytes of a read and of a write: all that are asked for, many, few, and one.
WHOLE, MANY, FEW, ONE = 1 << 30, 1000, 7, 1
TAKES_NOTHING = 0


class Fault(NamedTuple):
    """The call that fails, and its error."""

    call: str
    error: int

    def is_passed_over(self) -> bool:
        """Whether the program is to go on as if nothing had failed. An interrupted write is tried
        again, and a file whose size is not told is read."""
        return self in (Fault("write", errno.EINTR), Fault("statx", errno.EIO))


FAULTS_OF_CALLS = [
    Fault("read", errno.EIO),
    Fault("read", errno.EINTR),
    Fault("write", errno.EIO),
    Fault("write", errno.EINTR),
    Fault("write", TAKES_NOTHING),
    Fault("open", errno.EMFILE),
    Fault("fcntl", errno.EMFILE),
    Fault("statx", errno.EIO),
]


class Texts:
    """What the runs of a case are to write."""

    def __init__(self, case: Case) -> None:
        self.case = case
        self.ample = built.wanted(case)
        # The help's text is the program's own.
        self.written = (
            self.ample.written if isinstance(self.ample.written, bytes) else built.run(case).out
        )
        self.ample = self.ample._replace(written=self.written)
        self.replies: dict[bytes, bytes] = {}

    def due(self, given: int, is_read: bool) -> bytes:
        """What is to be written before more is read: where so many bytes were given of standard
        input, and where all was read."""
        command = self.case.words[:1]
        if is_read or self.case in WORDS:
            return self.written
        if command != (b"session",):
            return b""
        prefix = ended_lines(self.case.input[:given])
        if prefix not in self.replies:
            written = built.wanted(self.case._replace(input=prefix)).written
            assert isinstance(written, bytes)
            self.replies[prefix] = written
        return self.replies[prefix]


def wrong_in(texts: Texts, fault: Fault, run: Run, calls: list[Call]) -> str | None:
    """Says what is wrong with a run in which a call may have failed."""
    given, written = 0, 0
    failed: tuple[str, int] | None = None
    is_read, problem_is_read = False, PROBLEM not in texts.case.words
    for name, file, result in calls:
        due = texts.due(given, is_read)
        if name == "read" and failed:
            return f"it reads on after a failed {failed[0]}"
        if name == "read" and written != len(due):
            return f"it reads on after it has written {written} bytes, and not {len(due)}"
        if name == "read" and file == INPUT and not problem_is_read:
            return "it reads standard input before it has read the problem"
        if result < 0 or (name, result) == ("write", TAKES_NOTHING):
            failed = failed or (None if fault.is_passed_over() else (name, file))
        elif (name, file) == ("read", INPUT):
            given, is_read = given + result, result == 0
        elif name == "read":
            problem_is_read = result == 0
        elif (name, file) == ("write", OUTPUT):
            written += result
    due = texts.due(given, is_read)
    if len(run.out) != written:
        return f"its calls wrote {written} bytes"
    return None if wanted_end(texts.ample, failed, due, run).allows(*run) else f"it ends so: {run}"


def wrong_writes(texts: Texts, calls: list[Call]) -> str | None:
    """Says what is wrong with the writes of a run in which no call fails and none is cut short."""
    case = texts.case
    ends = (
        [place for place, byte in enumerate(case.input, 1) if byte == LINE_FEED]
        if case.words[:1] == (b"session",)
        else []
    )
    lengths = [0, *(len(texts.due(end, False)) for end in ends), len(texts.written)]
    wanted = [end - begin for begin, end in zip(lengths, lengths[1:]) if end > begin]
    writes = [result for name, file, result in calls if (name, file) == ("write", OUTPUT)]
    return None if writes == wanted else f"it writes {writes} bytes, and not {wanted}"


def wanted_end(ample: Outcome, failed: tuple[str, int] | None, due: bytes, run: Run) -> Outcome:
    """How a run is to end in which this call failed. A writer that failed once may be given the
    rest of its text again, but none that follows."""
    if failed is None:
        return ample
    call, file = failed
    if call == "read":
        return Outcome(4, due, told("read failed"))
    if call != "write":
        return Outcome(4, b"", told("cannot open the problem"))
    if file == OUTPUT:
        return Outcome(4, due[: len(run.out)], told("write failed"))
    # Where standard error takes less than all, the status still tells.
    return ample._replace(told=run.err)


def pieces_of(case: Case) -> list[int]:
    """Of a long text not too small ones: each read and each write is a run."""
    return [WHOLE, MANY if len(case.input) > MANY else FEW]


def items() -> Iterator[tuple[Case, list[int]]]:
    """Each case with the most bytes of a read and of a write."""
    for case in [case for case, _ in WORKED] + WORDS:
        yield case, pieces_of(case)
    for kind in (SOLVES, SESSIONS, CHECKS, VITAL):
        yield kind[-1].case, [ONE]
    for case in LONG:
        yield case, [WHOLE, MANY]


@pytest.mark.seconds(1)
@pytest.mark.usefixtures("case_folder")
@pytest.mark.parametrize(
    ("case", "pieces"), [pytest.param(*it, id=f"{it[0].name}, {it[1]}") for it in items()]
)
def test_failing_calls(case: Case, pieces: list[int], faults: str) -> None:
    """Each call of each kind fails in turn."""
    built.put_problem(case)
    texts = Texts(case)
    for piece in pieces:
        for fault in FAULTS_OF_CALLS:
            for number in count(1):
                run, calls = built.watch(
                    case, faults, CALL=fault.call, AT=number, AS=fault.error, PIECE=piece
                )
                wrong = wrong_in(texts, fault, run, calls)
                assert (
                    not wrong
                ), f"pieces of {piece}, {fault.call} {number} fails with {fault.error}: {wrong}"
                if sum(name == fault.call for name, *_ in calls) < number:
                    break
            if piece == WHOLE and case not in LONG + WORDS:
                wrong = wrong_writes(texts, calls)
                assert not wrong, wrong
