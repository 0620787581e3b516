"""Answers without a session, and sessions whose solves begin from scratch and give only the value
and the cut."""

from __future__ import annotations

from array import array
from collections.abc import Iterable, Sequence
from typing import TYPE_CHECKING

from ..errors import NumberTooLarge, SessionEnded, UnknownCommand
from ..files import scratch
from ..history import Command
from ..text.lexical import AMOUNTS, NODES
from .base import (
    FilePath,
    Part,
    ProblemColumns,
    Ranked,
    Session,
    Solved,
    ValuesWithout,
    Way,
    WorstWithout,
    command_line,
    refused,
)
from .column_texts import problem_pieces

if TYPE_CHECKING:
    import subprocess

    from .process import Begun

VALUE, CUT, FLOW = ["solve", "--brief"], ["solve", "--brief", "--cut"], ["solve", "--any"]
VITAL = {Part.ARC: ["vital"], Part.NODE: ["vital", "--nodes"]}
WORST = {
    Ranked.ARCS: ["vital", "--worst"],
    Ranked.NODES: ["vital", "--nodes", "--worst"],
    Ranked.PAIRS: ["vital", "--pairs", "--worst"],
}
# The most arcs, nodes or pairs that the program ranks.
MOST_RANKED = 10_000


def solved(
    problem: Iterable[bytes], words: list[str], program: FilePath, begun: Begun | None = None
) -> Solved:
    """Return the program's answer to these words about a problem in pieces. `begun` is called with
    its process. Raises what `answer_to` raises, and `SessionEnded` if the answer is not understood.
    """
    text = _answer(problem, words, program, begun)
    try:
        value = int(text[: text.find(b"\n")].split()[-1])
        side = (
            [int(line[7:]) for line in text.splitlines() if line.startswith(b"c side ")]
            if words == CUT
            else []
        )
    except (ValueError, IndexError):
        raise _not_understood(words) from None
    return Solved(value, text if words == FLOW else b"", side)


def values_without(
    problem: ProblemColumns, part: Part, program: FilePath, begun: Begun | None = None
) -> ValuesWithout:
    """Return the program's answer to `vital` about a problem. Raises what `solved` raises."""
    words = VITAL[part]
    fields = _answer(problem_pieces(problem), words, program, begun).split()
    try:
        value = int(fields[2])
        without = array(AMOUNTS, map(int, fields[5::3]))
        expected = _numbers_of(problem, part)
        if (
            fields[:2] != [b"c", b"value"]
            or [*map(int, fields[4::3])] != expected
            or len(without) != len(expected)
        ):
            raise ValueError
    except (IndexError, OverflowError, ValueError):
        raise _not_understood(words) from None
    if part is Part.NODE:
        for end in sorted((problem.source, problem.sink)):
            without.insert(end - 1, value)
    return ValuesWithout(value, without)


def _numbers_of(problem: ProblemColumns, part: Part) -> list[int]:
    """Return the numbers of what `vital` leaves out in turn, in its order."""
    if part is Part.ARC:
        return [*range(1, len(problem.tails) + 1)]
    ends = problem.source, problem.sink
    return [number for number in range(1, problem.nodes + 1) if number not in ends]


def worst_without(
    problem: ProblemColumns,
    ranked: Ranked,
    most: int,
    program: FilePath,
    begun: Begun | None = None,
) -> WorstWithout:
    """Return the program's answer to `vital --worst` about a problem; `most` is at most
    MOST_RANKED. Raises what `solved` raises."""
    words = [*WORST[ranked], str(most)]
    lines = _answer(problem_pieces(problem), words, program, begun).splitlines()
    arcs = len(problem.tails)
    try:
        (value,) = _numbers_after([b"c", b"value"], lines[0], 1)
        rows = [_numbers_after([b"v"], line, ranked.column_count + 1) for line in lines[1:]]
        without = array(AMOUNTS, (left for *_, left in rows))
    except (IndexError, OverflowError, ValueError):
        raise _not_understood(words) from None
    is_whole = len(rows) == min(most, ranked.count(problem.nodes, arcs))
    last = problem.nodes if ranked is Ranked.NODES else arcs
    if not is_whole or max(without, default=0) > value or not _are_in_order(rows, last):
        raise _not_understood(words)
    numbers = (array(NODES, (row[at] for row in rows)) for at in range(ranked.column_count))
    return WorstWithout(value, tuple(numbers), without)


def worst_among(
    problem: ProblemColumns, ranked: Ranked, most: int, among: bytes, program: FilePath
) -> WorstWithout:
    """Return the same of arcs that have a byte other than 0 in `among`, and of pairs of them, or of
    all if it is empty. The program ranks all arcs, so it is asked for more than are wanted. Raises
    `NumberTooLarge` if it would have to rank more than MOST_RANKED pairs, and what `solved` raises.
    """
    hidden = among.count(0)
    if ranked is Ranked.ARCS and most + hidden > MOST_RANKED:
        from heapq import nsmallest

        value, without = values_without(problem, Part.ARC, program)
        numbers = (number for number, mark in enumerate(among, 1) if mark)
        worst = nsmallest(most, ((without[number - 1], number) for number in numbers))
        return _chosen(value, [(number, left) for left, number in worst], 1)
    asked = most + hidden if ranked is Ranked.ARCS else most
    while True:
        judge_count(ranked, asked)
        found = worst_without(problem, ranked, asked, program)
        rows = [
            row
            for row in zip(*found.numbers, found.without)
            if not among or all(among[number - 1] for number in row[:-1])
        ]
        if len(rows) >= most or len(found.without) < asked:
            return _chosen(found.value, rows[:most], ranked.column_count)
        asked *= 4


def judge_count(ranked: Ranked, count: int) -> None:
    """Raise `NumberTooLarge` if this count is more than the program ranks."""
    if count > MOST_RANKED:
        raise NumberTooLarge(
            f"{count} {ranked.value}: the program ranks {MOST_RANKED:,} at most; the library ranks "
            "more after a solve"
        )


def _chosen(value: int, rows: Sequence[tuple[int, ...]], column_count: int) -> WorstWithout:
    columns = (array(NODES, (row[at] for row in rows)) for at in range(column_count))
    return WorstWithout(value, tuple(columns), array(AMOUNTS, (row[-1] for row in rows)))


def _are_in_order(rows: list[list[int]], last: int) -> bool:
    """Return True if the rows that leave least come first, and each has other numbers up to
    `last`, ascending."""
    order = [(left, numbers) for *numbers, left in rows]
    known = range(1, last + 1)
    return (
        all(first < second for first, second in zip(order, order[1:]))
        and len({tuple(numbers) for _, numbers in order}) == len(rows)
        and all(numbers == sorted({*numbers}) for _, numbers in order)
        and all(number in known for _, numbers in order for number in numbers)
    )


def _numbers_after(words: list[bytes], line: bytes, count: int) -> list[int]:
    """Return the numbers of a line that begins with these words. Raises a ValueError if there is
    another count of them."""
    fields = line.split()
    numbers = [*map(int, fields[len(words) :])]
    if fields[: len(words)] != words or len(numbers) != count:
        raise ValueError
    return numbers


def _answer(
    problem: Iterable[bytes], words: list[str], program: FilePath, begun: Begun | None
) -> bytes:
    # Small networks are solved without a program.
    from .process import answer_to

    with scratch() as file:
        file.writelines(problem)
        file.seek(0)
        return answer_to(file, program, words, begun)


def _not_understood(words: list[str]) -> SessionEnded:
    return SessionEnded(f"dmf's answer to `{' '.join(words)}` was not understood")


class FreshSession(Session):
    """A session that solves by `dmf solve --brief --cut`: each solve finds the greatest value and
    the smallest side of a minimum cut of the present network from scratch.

    No flow is known, so that no change takes long. Another session takes all changes and decides
    what is refused; only the solves do not reach it.
    """

    def __init__(self, session: Session, program: FilePath) -> None:
        super().__init__(session.end)
        self._session = session
        self._program = program
        self._found = Solved(0)
        # The program that is running now.
        self._running: subprocess.Popen[bytes] | None = None
        # For each step made, and for each step undone, the latest undone last: whether it is a
        # solve.
        self._past: list[bool] = []
        self._future: list[bool] = []

    @property
    def way(self) -> Way:
        return self._session.way

    def is_full_after(self, most: int) -> bool:
        return self._session.is_full_after(most)

    def break_off(self, why: str) -> None:
        """End the session, and kill a program that is running."""
        self._session.break_off(why)
        if self._running:
            self._running.kill()

    def kill(self, why: str) -> None:
        if self.end.alive:
            self.why_ended = why
            self._session.kill(why)
            self.end()

    def step(self, command: Command, at: object = None) -> int:
        self.asked_count += 1
        word, *numbers = command
        if word == "solve":
            self._found = solved([self._session.problem()], CUT, self._program, self._begun)
        elif word in ("undo", "redo"):
            return self._stepped(command)
        else:
            self._session.step(command, at)
            self._found = Solved(0)
        self._past.append(word == "solve")
        self._future.clear()
        return self._found.value

    def _begun(self, process: subprocess.Popen[bytes]) -> None:
        self._running = process

    def _stepped(self, command: Command) -> int:
        """Step back or forward. The other session knows only the steps that are not solves."""
        word, count = command
        left, grown = (self._past, self._future) if word == "undo" else (self._future, self._past)
        if count > len(left):
            raise refused(f"nothing to {word}", command_line(command), None)
        steps = left[len(left) - count :]
        self._session.step((word, steps.count(False)))
        grown += reversed(steps)
        del left[len(left) - count :]
        self._found = Solved(0)
        return 0

    def carry_out(self, commands: Sequence[Command]) -> int:
        value = 0
        for command in commands:
            value = self.step(command)
        return value

    def flows(self, value: int, open_count: int) -> bytes | array[int]:
        """Raise an `UnknownCommand`."""
        raise UnknownCommand(
            "the flow in a sweep whose cases are solved from scratch: only the value and the cut "
            "are known"
        )

    def cut(self) -> tuple[int, list[int]]:
        if not self._past or not self._past[-1] or not self._found.side:
            raise refused("flow is not greatest", "print cut", None)
        return self._found.value, list(self._found.side)

    def problem(self) -> bytes:
        return self._session.problem()

    def try_cases(self, cases: Sequence[Sequence[Command]], value: int, found: list[int]) -> None:
        for commands in cases:
            solved_value = self.carry_out([*commands, ("solve",)])
            self._stepped(("undo", len(commands) + 1))
            found.append(solved_value)
