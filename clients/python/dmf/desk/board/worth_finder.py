"""Find what each arc and each place is worth, where a second arc helps most, and the worst pairs of
arcs, beside the requests of a page, so that none waits for it."""

from __future__ import annotations

import contextlib
import subprocess
import threading
from collections.abc import Callable, Mapping

from ...errors import Error, NumberTooLarge
from ...losses import marks_of
from ...session.base import (
    PROGRAM,
    Part,
    ProblemColumns,
    Program,
    Ranked,
    Runner,
    Session,
    WorstWithout,
)
from ...session.fresh import values_without, worst_without
from ...session.runners import chosen, program_of
from ..answers import LARGE, Answers
from ..seconds import AskedSeconds, gains_by_pipe, second_arcs
from ..workspace import Desk
from ..worth import MOST_PAIRED, MOST_PAIRS, pairs_of_pipes, pipes_by_arc

# The most arcs of a network that is solved once more by the library; a larger one is left to the
# program, which solves hard networks many times faster. With 10,000 pipes that lead both ways it
# takes 0.1 s.
MOST_IN_PROCESS = 25_000
# How long a request waits for what may be found soon, in seconds.
PATIENCE = 0.05
# The most pairs of arcs that are listed to find the worst pairs of pipes.
MOST_ASKED = 20_000


class WorthRun:
    """A search for the value without each arc and each node of one state, for what second pipes
    gain, and then for the pairs of pipes that cost most to lose together, in a thread of its own.
    Its results become part of that state's answers."""

    def __init__(
        self,
        answers: Answers,
        problem: ProblemColumns,
        program: Program,
        seconds: AskedSeconds,
        pipes: Mapping[int, int] | None,
    ) -> None:
        """Begin the search. `seconds` are the second arcs beside the pipes of the limit. `pipes`
        has the pipe of each arc, or is None if the network is too large to find pairs."""
        self.answers = answers
        self._problem = problem
        self._program = program
        self._seconds = seconds
        self._pipes = pipes
        # What is running now.
        self._process: subprocess.Popen[bytes] | None = None
        self._session: Session | None = None
        self._is_over = False
        self._thread = threading.Thread(target=self._find, daemon=True)
        self._thread.start()

    def _find(self) -> None:
        # If this fails, nothing is known, and the page says so.
        with contextlib.suppress(Error, OSError):
            way = chosen(self._program)
            if len(self._problem.tails) <= MOST_IN_PROCESS and not isinstance(way, PROGRAM):
                self._find_by_library(way)
            else:
                self._find_by_program()

    def _find_by_library(self, library: Runner) -> None:
        # A case is undone with its solve.
        steps = 1 + max(map(len, self._seconds.cases.values()), default=0)
        session = library.begin(self._problem, steps)
        self._session = session

        marks = marks_of(self._pipes or {}, len(self._problem.tails))

        def worst(most: int) -> WorstWithout:
            found = session.worst_without(Ranked.PAIRS, most, marks)
            if found is None:
                raise session.ended()
            return found

        try:
            if self._is_over:
                raise session.ended()
            value = session.step(("solve",))
            self.answers.gains = self._gains(session, value)
            found = {part: session.values_without(part) for part in Part}
            self.answers.worth = {part: it for part, it in found.items() if it is not None}
            self._find_pairs(worst)
        finally:
            session.end()

    def _gains(self, session: Session, value: int) -> dict[int, int] | None:
        """Return what second pipes gain: all together, and those that are more than new arcs one by
        one. None if the library has no room to find them."""
        seconds, tried = self._seconds, list[int]()
        gains = session.gains(seconds.arcs)
        if gains is None:
            return None
        session.try_cases([*seconds.cases.values()], value, tried)
        found = gains_by_pipe(seconds, gains)
        return {**found, **{number: it - value for number, it in zip(seconds.cases, tried)}}

    def _find_by_program(self) -> None:
        program, problem = program_of(self._program), self._problem
        self.answers.worth = {
            part: values_without(problem, part, program, self._begun) for part in Part
        }
        self._find_pairs(
            lambda most: worst_without(problem, Ranked.PAIRS, most, program, self._begun)
        )

    def _find_pairs(self, worst: Callable[[int], WorstWithout]) -> None:
        """Find the worst pairs of pipes, unless the list of pairs of arcs would be too long."""
        if self._pipes is None:
            return

        def find(most: int) -> WorstWithout:
            if most > MOST_ASKED:
                raise NumberTooLarge(f"{most} pairs are too many to list beside a page")
            return worst(most)

        self.answers.pairs[MOST_PAIRS] = pairs_of_pipes(find, self._pipes, MOST_PAIRS)

    def _begun(self, process: subprocess.Popen[bytes]) -> None:
        self._process = process
        if self._is_over:
            process.kill()

    def is_over_within(self, seconds: float) -> bool:
        """Wait until it is over, or for this long; return True if it is over."""
        self._thread.join(seconds)
        return not self._thread.is_alive()

    def end(self) -> None:
        """End it at once."""
        self._is_over = True
        if self._session:
            self._session.break_off("another state is shown")
        if self._process:
            with contextlib.suppress(ProcessLookupError):
                self._process.kill()


class WorthFinder:
    """A finder of the value without each arc and each node, of the gains of second pipes and of the
    worst pairs, in the present state of a desk. A run for an earlier state is ended. Calls are made
    one after another."""

    def __init__(self, desk: Desk) -> None:
        self._desk = desk
        self._run: WorthRun | None = None

    def is_finding(self) -> bool:
        """Begin to find what is not known, and return True while something is being found. Return
        False if all is known, the search failed, or the network is too large to search after each
        change."""
        network, answers = self._desk.network, self._desk.state.answers
        arcs = len(network.lines)
        is_known = answers.knows_worth and answers.gains is not None
        is_known = is_known and (MOST_PAIRS in answers.pairs or arcs > MOST_PAIRED)
        if is_known or arcs >= LARGE:
            return False
        if self._run is None or self._run.answers is not answers:
            self.end()
            pipes = pipes_by_arc(network) if arcs <= MOST_PAIRED else None
            seconds = second_arcs(network, self._desk.cut_arcs())
            self._run = WorthRun(answers, network.problem(), network.program, seconds, pipes)
        return not self._run.is_over_within(PATIENCE)

    def end(self) -> None:
        """End a run that has not ended."""
        if self._run:
            self._run.end()
        self._run = None
