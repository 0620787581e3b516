"""A planner's desk: a network by its names, the steps that were tried on it, and sweeps.

A step is one thing that a planner does, such as closing a place with a limit. It may be several
changes of the network, and is undone as a whole. Arcs are given by their numbers here, as
`dmf-names` prints them; `Directory` finds the number of a name. A step is stored as a request, so
it can be made again: on a new session if one has ended, or on the problem of a finer scale if an
amount has more decimals than the numbers of the session allow.

An act has three phases. It is prepared, which changes nothing that is shown, though the session may
move on; the keeper writes it; and then the prepared state replaces the present one, by one
assignment. Wherever an act is interrupted, the desk is in the state before it or in the one after
it, and the session is brought to that state when it is asked next.
"""

from __future__ import annotations

import contextlib
import copy
from array import array
from collections.abc import Iterable, Iterator, Mapping, Sequence
from dataclasses import replace
from itertools import chain

from ..errors import CapacitiesPast64Bits, FlowIsNotGreatest
from ..quantity import Quantity, plain_text
from ..session.base import Program
from ..tables.loader import LoadedProblem
from ..text.spelling import quoted_name
from .answers import Answers, FirstAnswer, Limit
from .desk_state import DeskState
from .live_network import LiveNetwork
from .pipes import TwoWayPipe
from .running_networks import RunningNetworks
from .scale import finer, past_64_bits
from .step_history import StepHistory
from .steps import Add, Cap, Change, Close, DeskFault, MakePlace, Place, Reopen, Shut, Solve, Step


class Desk(StepHistory):
    """A network, and the steps that were made on it. Calls raise `DeskFault` and what a network
    raises. Any error during a step ends the session, which might be between two steps: `has_ended`
    is True then, and `begin_again` makes the steps again on a new one.

    Parameters
    ----------
    with_solve
        Whether each step solves after its change, so that its value is always the greatest.
    may_follow
        Whether the first solve of a large network may find the value and the limit alone; then
        `follow`, or a call that needs them, finds the flows.
    running
        What has the networks of the desk, for a caller whose other threads may end them before the
        desk is made.
    """

    def __init__(
        self,
        subject: LoadedProblem,
        *,
        with_solve: bool = False,
        may_follow: bool = False,
        program: Program = None,
        running: RunningNetworks | None = None,
    ) -> None:
        self._running = running or RunningNetworks(program)
        first = FirstAnswer.of(subject, program) if with_solve and may_follow else None
        self._running.first = first
        network = self._running.begin(subject)
        self.with_solve = with_solve
        # The network of the desk for which this one tries something out, if it does.
        self._lent: LiveNetwork | None = None
        self.state = DeskState(network)
        if with_solve:
            found = first.wait() if first else None
            self._running.first = None
            answers = Answers(found.side, found.value) if found else Answers()
            solve = "solve", (Solve(),)
            steps = (network.promise(found.value),) if found else network.extend((), *solve)
            begun = replace(self.state, steps=steps, at=1, floors=(1,), turn=1)
            self.state = replace(begun, answers=answers)

    # The state, and its replacement by another one.

    @property
    def network(self) -> LiveNetwork:
        """Return the network, which stands where the state does. Raise `SessionEnded` if it cannot
        be brought there."""
        state = self.state
        done = state.network.stand_on(state.done)
        if done is not state.done:
            self.state = state.as_made(done)
        return state.network

    def take(self, after: DeskState) -> None:
        """Replace the present state by a prepared one, once that is written."""
        if self.keeper and after.record is not self.state.record:
            self.keeper.write(self.state, after)
        self.state = after

    def tell(self, *lines: str) -> None:
        """Add lines to those that are shown beside the next answer."""
        self.state = replace(self.state, news=(*self.state.news, *lines))

    def take_news(self) -> list[str]:
        """Return the lines to show beside an answer, and clear them."""
        news = self.state.news
        if news:
            self.state = replace(self.state, news=())
        return [*news]

    def follow(self) -> None:
        """Find the flows, if only the value and the limit are known so far."""
        state = self.state
        if state.answers.promised is None:
            return
        network, (promise, *undone) = self.network, state.steps
        (step,) = network.extend((), promise.text, promise.changes)
        if step.value != promise.value:
            network.drop()
            found, wanted = (network.measure.whole(it.value) for it in (step, promise))
            raise DeskFault(f"the session found the value {found}, and {wanted} was expected")
        self.state = replace(
            state, steps=(step, *undone), answers=replace(state.answers, promised=None)
        )

    def break_off(self, why: str) -> None:
        """End every running session at once, also for a thread that waits for it."""
        self._running.break_off(why)

    def begin_again(self) -> None:
        """Make all steps again on a new session. If that fails, nothing changes here."""
        before = self.state
        before.network.drop()
        network, done = self._running.make_again(before.network.subject, before.done)
        self.state = replace(before.as_made(done), network=network, answers=Answers())
        self._running.leave(before.network)

    @contextlib.contextmanager
    def _fine_for(self, amounts: Iterable[Quantity]) -> Iterator[DeskState]:
        """Yield the present state on a network whose numbers can express these amounts. If they
        have too few decimals, the steps are made again on a new session, with a finer scale. Raise
        a `DeskFault` if that is impossible. A network that the block does not take is ended."""
        self.follow()
        before = self.network
        state, subject, finest = self.state, before.subject, ""
        for amount in amounts:
            coarser, subject = subject, finer(subject, amount)
            finest = finest if coarser is subject else plain_text(amount)
        if subject is not before.subject:
            try:
                network, done = self._running.make_again(subject, state.done)
            except CapacitiesPast64Bits:
                raise past_64_bits(subject.measure, finest) from None
            state = replace(state.as_made(done), network=network, answers=Answers())
        try:
            if [step.value for step in state.done] != [step.value for step in self.state.done]:
                raise DeskFault(
                    "with finer numbers the steps have other values; nothing was changed"
                )
            yield state
        finally:
            for network in {before, state.network} - {self.state.network, self._lent}:
                self._running.leave(network)

    @contextlib.contextmanager
    def aside(self) -> Iterator[Desk]:
        """Yield another desk in the same state, for trials that this one does not keep. It uses the
        same session, which returns to this desk's state when this desk is asked."""
        self.follow()
        with self.beside(self.state) as other:
            yield other

    @contextlib.contextmanager
    def beside(self, state: DeskState) -> Iterator[Desk]:
        """Yield another desk in a state of the same network, of which nothing is kept."""
        other = copy.copy(self)
        other.keeper, other.state, other._lent = None, state, state.network
        try:
            yield other
        finally:
            if other.state.network is not state.network:
                self._running.leave(other.state.network)

    def end(self) -> None:
        """End the session, and what keeps the desk."""
        try:
            self.state.network.network.end()
        finally:
            if self.keeper:
                self.keeper.end()

    # Answers about the present state.

    @property
    def has_ended(self) -> bool:
        """Return True if the session is known to have ended."""
        return self.state.network.has_ended

    @property
    def news(self) -> list[str]:
        """Return what is to be said beside the next answer."""
        return [*self.state.news]

    @property
    def value(self) -> Quantity:
        """Return the value of the present flow."""
        done = self.state.done
        return done[-1].value if done else 0

    @property
    def steps(self) -> tuple[Step, ...]:
        """Return the steps that were made, and after them those that were undone."""
        return self.state.steps

    @property
    def at(self) -> int:
        """Return how many of the steps are made."""
        return self.state.at

    @property
    def turn(self) -> int:
        """Return a number that is larger after each change."""
        return self.state.turn

    @property
    def is_greatest(self) -> bool:
        """Return True if no flow has a larger value than the present one."""
        done = self.state.done
        if done and done[-1].is_solved:
            return True
        if self.state.answers.is_greatest is None:
            with contextlib.suppress(FlowIsNotGreatest):
                self.limit()
        return bool(self.state.answers.is_greatest)

    @property
    def flows_follow(self) -> bool:
        """Return True if the value and the limit are known, and the flows are not yet."""
        return self.state.answers.promised is not None

    def limit(self) -> Limit:
        """Return the smallest minimum cut. Raise `FlowIsNotGreatest`."""
        answers = self.state.answers
        return answers.limit or answers.find_limit(self.network)

    def cut_arcs(self) -> dict[int, None]:
        """Return the pipes of the limit, in their order. Raise `FlowIsNotGreatest`."""
        return self.limit().pipes

    def side(self) -> set[int]:
        """Return the nodes on the source's side of the cut. Raise `FlowIsNotGreatest`."""
        return self.limit().side

    def arc_flows(self) -> array[int]:
        """Return the flow on each arc, in the whole numbers of the session: that on arc 1 first,
        and 0 on a closed one."""
        self.follow()
        answers = self.state.answers
        if answers.flows is None:
            answers.flows = self.network.flows()
        return answers.flows

    def flows(self) -> Sequence[int]:
        """Return the same, with the net flow on a pipe that leads both ways: below 0 if it goes
        back. At the second of its arcs it is that of the first, the other way round."""
        flows, answers, pipes = self.arc_flows(), self.state.answers, self.state.network.pipes
        if answers.net is None:
            answers.net = pipes.net(flows) if pipes.are_two_way else flows
        return answers.net

    def flow(self, number: int) -> Quantity:
        """Return the flow on a pipe, which is 0 if it is closed. Raise a `DeskFault` if the arc
        does not exist."""
        self.network.line(number)
        return self.flows_on([number])[0]

    def flows_on(self, numbers: Sequence[int]) -> list[Quantity]:
        """Return the flow on each of these pipes."""
        network, answers = self.network, self.state.answers
        limit = self.limit() if answers.promised is not None else answers.limit
        if limit and limit.pipes.keys() >= {*numbers}:
            # Each maximum flow fills the arcs of a minimum cut, and nothing flows back over it.
            return [
                -pipe.back.capacity
                if isinstance(pipe, TwoWayPipe) and number not in limit.arcs
                else pipe.capacity
                for number, pipe in zip(numbers, network.pipes.of(numbers))
            ]
        flows, quantity = self.flows(), network.measure.quantity
        return [quantity(flows[number - 1]) for number in numbers]

    # Changes.

    def solve(self) -> Step:
        """Make the flow a maximum flow."""
        return self.step("solve", [Solve()])

    def close(self, *numbers: int, words: str = "") -> Step:
        """Close pipes, in one step of these words."""
        network = self.network
        arcs = dict.fromkeys(chain.from_iterable(map(network.open_arcs, numbers)))
        return self.step(f"close {words or network.names.short(numbers[0])}", [*map(Close, arcs)])

    def cap(self, number: int, capacity: Quantity) -> Step:
        """Give a pipe another capacity, both ways if it leads both ways."""
        return self.cap_each(dict.fromkeys(self.network.open_arcs(number), capacity))

    def cap_each(self, capacities: Mapping[int, Quantity], words: str = "") -> Step:
        """Give open arcs other capacities, in one step of these words. The two ways of a pipe may
        get different ones."""
        with self._fine_for(capacities.values()) as state:
            network = state.network
            taken = {arc: network.taken(capacity) for arc, capacity in capacities.items()}
            words = words or " and ".join(network.told_capacities(taken))
            return self.step(words, [Cap(arc, capacity) for arc, capacity in taken.items()], state)

    def add(
        self, tail: Place | MakePlace, head: Place | MakePlace, capacity: Quantity, name: str = ""
    ) -> Step:
        """Add an arc, and make the places at its ends that are to be made, in one step."""
        with self._fine_for([capacity]) as state:
            network = state.network
            made, (begin, end) = network.ends_of_new([tail, head])
            labels = " -> ".join(
                it.name if isinstance(it, MakePlace) else network.names.node(it.entry)
                for it in (tail, head)
            )
            taken = network.taken(capacity)
            new = " and ".join(it.name for it in made)
            text = f"add {name + ', ' if name else ''}{labels}, {network.told(taken)}"
            text += f" ({new} {'is' if len(made) == 1 else 'are'} new)" * bool(made)
            added = Add(begin.exit, end.entry, taken, name or None)
            return self.step(text, [*made, added], state)

    def double(self, *numbers: int, words: str = "") -> Step:
        """Add a second pipe beside each of these open ones, of the same capacity."""
        network = self.network
        added: list[Change] = [add for number in numbers for add in network.second(number)]
        return self.step(f"a second one beside {words or network.names.short(numbers[0])}", added)

    def shut(self, place: Place) -> Step:
        """Close each open arc at a place, and the one that has its limit."""
        network = self.network
        if not any(
            not line.is_closed and (line.tail in place or line.head in place)
            for line in network.lines
        ):
            label, noun = network.names.node(place.entry), network.words.noun
            raise DeskFault(f"no {noun} is open at {quoted_name(label)}")
        return self.step(
            network.words.shut_step.format(place=network.names.node(place.entry)),
            [Shut(node) for node in dict.fromkeys(place)],
        )

    def open(self, *numbers: int, words: str = "") -> Step:
        """Open closed pipes, with the capacities that they had, in one step of these words. To the
        network they are new arcs with new numbers."""
        network = self.network
        arcs = dict.fromkeys(chain.from_iterable(map(network.closed_arcs, numbers)))
        return self.step(f"open {words or network.names.short(numbers[0])}", [*map(Reopen, arcs)])

    def open_place(self, place: Place) -> Step:
        """Open the arcs that shutting a place closed, except those to other shut places."""
        network = self.network
        label = network.names.node(place.entry)
        if not network.shut_nodes & set(place):
            raise DeskFault(f"{quoted_name(label)} is not shut")
        others = network.shut_nodes - set(place)
        closed = [
            number
            for number, line in enumerate(network.lines, 1)
            if line.is_shut
            and (line.tail in place or line.head in place)
            and not others & {line.tail, line.head}
        ]
        if not closed:
            each = f"each {network.words.noun} at {quoted_name(label)}"
            raise DeskFault(f"{each} leads to a place that is shut too")
        return self.step(
            network.words.open_step.format(place=label), [Reopen(number) for number in closed]
        )

    def step(self, text: str, changes: Sequence[Change], state: DeskState | None = None) -> Step:
        """Make a new step of these changes, in these words: from the present state on, or from the
        same one on another network."""
        self.follow()
        network = state.network if state else self.network
        before = state or self.state
        requests = self.keeper.requests(network, changes) if self.keeper else None
        wanted = [*changes, *network.following(changes)]
        solve = [Solve()] * (self.with_solve and wanted != [Solve()])
        try:
            steps = network.extend(before.done, text, (*wanted, *solve))
        except CapacitiesPast64Bits:
            raise past_64_bits(network.measure) from None
        turn = before.turn + 1
        after = replace(before, steps=steps, at=len(steps), turn=turn, answers=Answers())
        self.take(self.keeper.with_step(after, requests) if self.keeper else after)
        return steps[-1]
