"""The state of a desk, which is frozen, and what keeps each act that leads to another one."""

from __future__ import annotations

from collections.abc import Sequence
from dataclasses import dataclass, field, replace
from functools import cached_property
from typing import Any, Protocol

from .answers import Answers
from .live_network import LiveNetwork
from .steps import Change, Step


@dataclass(frozen=True)
class DeskState:
    """Everything that an act changes; it is never changed itself. The first `at` of the `steps` are
    made, and the others were undone. `floors` has the number of steps with which each open trial
    began; `turn` grows with each change; `news` are lines to show with the next answer; `scenario`
    is the name of a project's scenario, or empty; and `record` is what the keeper has of the
    state."""

    network: LiveNetwork
    steps: tuple[Step, ...] = ()
    at: int = 0
    floors: tuple[int, ...] = ()
    turn: int = 0
    answers: Answers = field(default_factory=Answers)
    news: tuple[str, ...] = ()
    scenario: str = ""
    record: object = None

    @cached_property
    def done(self) -> tuple[Step, ...]:
        """Return the steps that are made."""
        return self.steps[: self.at]

    def as_made(self, done: tuple[Step, ...]) -> DeskState:
        """Return the same state, whose steps the session has made once more as these."""
        return self if done is self.done else replace(self, steps=(*done, *self.steps[self.at :]))


class Keeper(Protocol):
    """Writes each act of a desk before it is shown, such as a project. It refuses with a
    `DeskFault`, which changes nothing."""

    def judge(self, back: int = 0) -> None:
        """Raise a `DeskFault` if nothing can be kept, or if `back` steps cannot be undone."""

    def requests(self, network: LiveNetwork, changes: Sequence[Change]) -> Any:
        """Return what a step of these changes asks for, as it is to be kept."""

    def with_step(self, after: DeskState, requests: Any) -> DeskState:
        """Return the state after a step with the record of it."""

    def with_place(self, after: DeskState) -> DeskState:
        """Return the state at another place among its steps, with the record of it."""

    def write(self, before: DeskState, after: DeskState) -> None:
        """Write what the second record has beyond the first."""

    def end(self) -> None:
        """End what is kept."""
