"""Answer cases that only close one or two arcs, or shut one node, by one call for what is lost
without them, where that is sooner than trying each."""

from __future__ import annotations

import functools
from array import array
from collections import Counter, deque
from collections.abc import Callable, Sequence
from itertools import chain, groupby
from typing import Any, NamedTuple, Optional, Tuple

from ..errors import Refused
from ..history import Command
from ..network import Network
from ..session.base import Ranked
from ..state import NetworkState
from ..text.lexical import NODES

# How long the library looks at each arc before it finds losses, in seconds, as long as no call has
# shown it: at 100,000 arcs 5 to 20 ms. For pairs it looks at them once more for each first arc.
LOOK = 1e-7
# Before cases are tried, one is thought to take this part of the copy's solve.
PART = 0.1
# One case is tried, to see how long they take now, if that seems to take this part of asking or
# less. On hard networks it can take seconds.
SMALL = 0.25
# What remains of the known time that asking takes for each case after some were tried: later ones
# may be easier.
REMAINS = 0.97

# The numbers of one or two arcs, or of a node; and what a case leaves out: the greatest of the
# losses of these is its own.
Thing = Tuple[int, ...]
LeftOut = Optional[Tuple[Ranked, Tuple[Thing, ...]]]


class Question(NamedTuple):
    """What the library is asked: the things in columns, those of each case, and how often it looks
    at all arcs."""

    ranked: Ranked
    things: list[Thing]
    cases: list[list[Thing]]
    looks: int

    @classmethod
    def of(cls, ranked: Ranked, cases: Sequence[tuple[Thing, ...]]) -> Question:
        """Ask about these cases. Pairs with an arc that is in many of them stand together."""
        counts = Counter(chain.from_iterable(chain.from_iterable(cases)))
        ordered = [
            [tuple(sorted(thing, key=lambda arc: (-counts[arc], arc))) for thing in things]
            for things in cases
        ]
        things = sorted(set(chain.from_iterable(ordered)))
        firsts = len({first for first, *_ in things}) if ranked is Ranked.PAIRS else 0
        return cls(ranked, things, ordered, 1 + firsts)

    def values(self, network: Network[Any]) -> list[int] | None:
        """Return the greatest value after each case, or None if the session does not find it."""
        columns = [array(NODES, column) for column in zip(*self.things)]
        losses = network._asked_losses(self.ranked, columns)
        if losses is None:
            return None
        value, lost = network._kept.value, dict(zip(self.things, losses))
        return [value - max(lost[thing] for thing in things) for things in self.cases]


class Seconds:
    """How many seconds of a processor cases of a sweep take if they are tried, and if they are
    asked for, as the last ones show."""

    def __init__(self, arc_count: int) -> None:
        # For a case that is tried: before that, and in each of the last two groups. The lesser of
        # these counts, since the first case on a copy takes longer.
        self.first_pace = 0.0
        self._paces: deque[float] = deque(maxlen=2)
        # For a look at all arcs, and for each case that is asked for besides.
        self.look, self._asked_pace = LOOK * arc_count, 0.0
        self._has_asked = False

    def tried(self, count: int, seconds: float) -> None:
        """Record how long `count` cases took that were tried."""
        self._paces.append(seconds / count)

    def asked(self, question: Question, seconds: float) -> None:
        """Record how long the answer to a question took."""
        look = seconds / question.looks
        self.look = min(self.look, look) if self._has_asked else look
        self._has_asked = True
        # As long again may be chance.
        more = seconds - 2 * question.looks * self.look
        self._asked_pace = max(0.0, more) / len(question.cases)

    def forget_asked(self) -> None:
        """Record that cases were tried since it seemed sooner."""
        self._asked_pace *= REMAINS

    def is_asking_sooner(self, ask: Callable[[], Question], count: int, is_new: bool) -> bool:
        """Return True if asking for `count` cases seems to take less time than trying them. None of
        them was tried if they are new."""
        pace = min(self._paces) if len(self._paces) == 2 else self.first_pace
        left = count * (pace - self._asked_pace)
        if left <= self.look or left <= self.look * ask().looks:
            return False
        asking = self.look * ask().looks + count * self._asked_pace
        return not is_new or pace > SMALL * asking


class CaseLosses:
    """The greatest values after cases on a solved copy, which are tried or asked for, whichever
    seems sooner."""

    def __init__(self, kept: NetworkState[Any]) -> None:
        self._kept = kept
        self._seconds = Seconds(kept.arc_count)
        # Whether the session finds losses.
        self._can_ask = True
        # Whether it was asked since this was last set to False.
        self.has_asked = False

    def begin(self, seconds: float) -> None:
        """Take a new session, which has solved the copy in this time of a processor."""
        self._seconds.first_pace = PART * seconds

    @property
    def look(self) -> float:
        """Return how many seconds a look at all arcs took for the last cases, or 0 without one."""
        return self._seconds.look if self.has_asked else 0.0

    def find(
        self,
        network: Network[Any],
        cases: Sequence[list[Command]],
        attempt: Callable[[Sequence[list[Command]]], None],
        found: Callable[[list[int]], None],
    ) -> None:
        """Find the value after each case, in their order: `attempt` tries cases, and `found` is
        given the values of those that were not tried."""
        runs = groupby(zip(cases, map(self._left_out, cases)), lambda it: it[1] and it[1][0])
        for ranked, run in runs:
            tried, left_out = zip(*run)
            if ranked is None:
                attempt(tried)
                continue
            things = [it[1] for it in left_out]
            ask = functools.cache(functools.partial(Question.of, ranked, things))
            self._find_alike(network, tried, ask, attempt, found)

    def _find_alike(
        self,
        network: Network[Any],
        cases: Sequence[list[Command]],
        ask: Callable[[], Question],
        attempt: Callable[[Sequence[list[Command]]], None],
        found: Callable[[list[int]], None],
    ) -> None:
        """Find the values after cases of one kind. They are tried in groups, each of twice as many
        as the last one, until asking for the rest seems sooner."""
        done, size = 0, 1
        while done < len(cases):
            left = len(cases) - done
            if self._can_ask and self._seconds.is_asking_sooner(ask, left, is_new=not done):
                values = self._asked(network, ask())
                if values is not None:
                    found(values[done:])
                    return
            group = cases[done : done + size]
            began = network._session.processor_seconds
            attempt(group)
            self._seconds.tried(len(group), network._session.processor_seconds - began)
            done, size = done + len(group), 2 * size
        self._seconds.forget_asked()

    def _asked(self, network: Network[Any], question: Question) -> list[int] | None:
        """Return the values that the session finds, or None if it does not, for lack of memory."""
        began = network._session.processor_seconds
        try:
            values = question.values(network)
        except Refused:
            values = None
        self._seconds.asked(question, network._session.processor_seconds - began)
        self._can_ask, self.has_asked = values is not None, values is not None
        return values

    def _left_out(self, case: list[Command]) -> LeftOut:
        """Return what a case leaves out of the network, if it does only that."""
        words = {word for word, *_ in case}
        numbers = [command[1] for command in case]
        if words == {"shut"}:
            ends = map(self._kept.number, (self._kept.source, self._kept.sink))
            return None if numbers[0] in ends else (Ranked.NODES, ((numbers[0],),))
        if words != {"close"} or len(case) > 2:
            return None
        if len(case) == 1 or is_there_and_back(self._kept, *numbers):
            return Ranked.ARCS, tuple((number,) for number in numbers)
        return Ranked.PAIRS, ((numbers[0], numbers[1]),)


def is_there_and_back(kept: NetworkState[Any], first: int, second: int) -> bool:
    """Return True if two arcs lead there and back. Without both, the lesser of the values without
    each is left: the greatest value is a concave function of what flows there, less what flows
    back."""
    there, back = map(kept.handle, (first, second))
    return first != second and (there.tail, there.head) == (back.head, back.tail)
