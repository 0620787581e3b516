"""The forms of cases that were worked out by hand, and the networks that several of them have."""

from __future__ import annotations

from typing import NamedTuple

from built import PROBLEM, Case
from oracle.program import Outcome


class Worked(NamedTuple):
    case: Case
    wanted: Outcome


def text(lines: str | bytes) -> bytes:
    """The text of lines between which a slash stands, or the text itself where it is one."""
    if isinstance(lines, bytes):
        return lines
    return "".join(line + "\n" for line in lines.split(" / ") if line).encode()


def solved(name: str, problem: str | bytes, written: str, *flags: bytes) -> Worked:
    return Worked(
        Case(name, (b"solve", *flags), text(problem), text(problem)), Outcome(0, text(written))
    )


def held(
    name: str, problem: str | bytes, commands: str | bytes, replies: str, *flags: bytes
) -> Worked:
    case = Case(name, (b"session", *flags, PROBLEM), text(problem), text(commands))
    return Worked(case, Outcome(int("refused" in replies), text(replies)))


def checked(name: str, problem: str | bytes, solution: str | bytes, verdict: str) -> Worked:
    case = Case(name, (b"check", PROBLEM), text(problem), text(solution))
    return Worked(case, Outcome(int("flow" in verdict), text(verdict)))


def valued(name: str, problem: str | bytes, written: str, *flags: bytes) -> Worked:
    """What is left without each arc of a problem, or each node, or without the worst."""
    case = Case(name, (b"vital", *flags), text(problem), text(problem))
    return Worked(case, Outcome(0, text(written)))


def without_room(name: str, problem: str) -> Worked:
    """A problem that has no room for second arcs."""
    case = Case(name, (b"vital", SECOND), text(problem), text(problem))
    return Worked(case, Outcome(4, b"", b"dmf: no room for second arcs\n"))


def faulty(problem: str | bytes, told: str, command: bytes = b"solve", *flags: bytes) -> Worked:
    """A problem that is refused. Standard input has it too, where it is read."""
    words = (command, *flags) if command in (b"solve", b"vital") else (command, PROBLEM)
    return Worked(
        Case(f"a problem: {told}", words, text(problem), text(problem)),
        Outcome(3, b"", f"dmf: {told}\n".encode()),
    )


def wrong(problem: str | bytes, solution: str | bytes, told: str) -> Worked:
    """A solution that is refused."""
    case = Case(f"a solution: {told}", (b"check", PROBLEM), text(problem), text(solution))
    return Worked(case, Outcome(3, b"", f"dmf: {told}\n".encode()))


CUT = b"--cut"
NODES = b"--nodes"
PAIRS = b"--pairs"
SECOND = b"--second"
WORST = b"--worst"
BRIEF = b"--brief"
# Four nodes: two ways from the source to the sink, and an arc from the one to the other.
CROSSED = "p max 4 5 / n 1 s / n 4 t / a 1 2 3 / a 1 3 2 / a 2 3 5 / a 2 4 2 / a 3 4 3"
CROSSED_FLOW = "s 5 / f 1 2 3 / f 1 3 2 / f 2 3 1 / f 2 4 2 / f 3 4 3"
CROSSED_CUT = "c cut 5 / c side 1"
NO_FLOW = "s 0 / f 1 2 0 / f 1 3 0 / f 2 3 0 / f 2 4 0 / f 3 4 0"
# The greatest flow where the fifth arc has capacity 1.
NARROW_FLOW = "s 3 / f 1 2 3 / f 1 3 0 / f 2 3 1 / f 2 4 2 / f 3 4 1"
NARROW_CUT = "c cut 3 / c side 1 / c side 2 / c side 3"
# Five nodes: two ways of the same length, which share their last arc.
JOINED = "p max 5 5 / n 1 s / n 5 t / a 1 2 1 / a 1 3 1 / a 2 4 1 / a 3 4 1 / a 4 5 1"
SECOND_WAY = "s 1 / f 1 2 0 / f 1 3 1 / f 2 4 0 / f 3 4 1 / f 4 5 1"
# Parallel arcs, an arc that comes back to its tail, and one into the source, in a text that is as
# loose as may be.
LOOSE = (
    b"cNote\r\n\r\np  max\t3   5\r\nn 3 t\r\nn 1 s\r\na 1 2 4\r\n  a 2 2 9\r\na 1 2 007 \r\na 2 1 "
    b"6\r\na 2 3 9"
)
LOOSE_FLOW = "s 9 / f 1 2 4 / f 2 2 0 / f 1 2 5 / f 2 1 0 / f 2 3 9"
# Four nodes: one way of parallel arcs, with an arc that comes back to its tail, and another way
# beside it.
PARALLEL = "p max 4 6 / n 1 s / n 4 t / a 1 2 1 / a 2 2 5 / a 1 2 2 / a 2 4 3 / a 1 3 2 / a 3 4 2"
PARALLEL_FLOW = "s 5 / f 1 2 1 / f 2 2 0 / f 1 2 2 / f 2 4 3 / f 1 3 2 / f 3 4 2"
LARGEST = "p max 2 1 / n 1 s / n 2 t / a 1 2 18446744073709551615"
LARGEST_FLOW = "s 18446744073709551615 / f 1 2 18446744073709551615"
NO_ARCS = "p max 2 0 / n 1 s / n 2 t"
TWO = "p max 2 1 / n 1 s / n 2 t"
