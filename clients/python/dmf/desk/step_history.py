"""The moves of a desk among its steps: undo and redo, and trials."""

from __future__ import annotations

from abc import ABC, abstractmethod
from dataclasses import replace

from .answers import Answers
from .desk_state import DeskState, Keeper
from .live_network import LiveNetwork
from .steps import DeskFault


class StepHistory(ABC):
    """The moves of a desk among its steps. The desk has the state, and replaces it."""

    keeper: Keeper | None = None
    state: DeskState
    with_solve: bool

    @property
    @abstractmethod
    def network(self) -> LiveNetwork:
        """Return the network, which stands where the state does."""

    @abstractmethod
    def take(self, after: DeskState) -> None:
        """Replace the present state by a prepared one."""

    @abstractmethod
    def follow(self) -> None:
        """Find the flows, if only the value and the limit are known so far."""

    @property
    def trials(self) -> int:
        """Return how many trials are open."""
        return len(self.state.floors) - self.with_solve

    def undo(self, count: int = 1) -> None:
        """Undo the last steps, all of them or none."""
        if self.keeper and count:
            self.keeper.judge(count)
        if count > self.state.at:
            raise DeskFault(_only(self.state.at, "undo"))
        if self.state.floors and self.state.at - count < self.state.floors[-1]:
            raise DeskFault(
                "the trial began there; `drop` or `keep` ends it"
                if self.trials
                else "nothing to undo"
            )
        self._move(self.state.at - count, self.state.floors)

    def redo(self, count: int = 1) -> None:
        """Redo the steps that were undone last, all of them or none."""
        if self.keeper and count:
            self.keeper.judge()
        undone = len(self.state.steps) - self.state.at
        if count > undone:
            raise DeskFault(_only(undone, "redo"))
        self._move(self.state.at + count, self.state.floors)

    def go_to(self, at: int) -> None:
        """Go back or forward to the state after the first `at` steps."""
        if not 0 <= at <= len(self.state.steps):
            raise DeskFault(f"step {at} does not exist")
        if at <= self.state.at:
            self.undo(self.state.at - at)
        else:
            self.redo(at - self.state.at)

    def begin_trial(self) -> None:
        """Begin a trial: what is done from here on is kept or dropped together."""
        self.state = replace(self.state, floors=(*self.state.floors, self.state.at))

    def keep(self) -> None:
        """End the trial that began last, and keep what was done."""
        self._refuse_no_trial()
        self.state = replace(self.state, floors=self.state.floors[:-1])

    def drop(self) -> None:
        """End the trial that began last, and undo its steps, which `redo` can redo."""
        self._refuse_no_trial()
        *floors, floor = self.state.floors
        if self.keeper and floor < self.state.at:
            self.keeper.judge()
        self._move(floor, tuple(floors))

    def _refuse_no_trial(self) -> None:
        if not self.trials:
            raise DeskFault("no trial is open; `try` begins one")

    def _move(self, at: int, floors: tuple[int, ...]) -> None:
        """Go to the state after the first `at` steps, in these trials."""
        self.follow()
        network, before = self.network, self.state
        if at == before.at:
            self.state = replace(before, floors=floors)
            return
        after = replace(
            before, at=at, floors=floors, turn=before.turn + abs(at - before.at), answers=Answers()
        )
        after = after.as_made(network.stand_on(after.done))
        self.take(self.keeper.with_place(after) if self.keeper else after)


def _only(count: int, do: str) -> str:
    """Return how many steps can be undone or redone, if more were asked for."""
    return f"only {count} step{'s' * (count != 1)} to {do}" if count else f"nothing to {do}"
