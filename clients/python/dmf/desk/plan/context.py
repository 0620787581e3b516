"""What a command acts on: the desk, and where its answers go."""

from __future__ import annotations

from collections.abc import Callable
from dataclasses import dataclass, field

from ...quantity import Quantity
from ..project.comparison import Comparison
from ..project.scenarios import Scenarios
from ..steps import Trial
from ..workspace import Desk
from ..worth import Loss, PairLoss
from .written_files import WrittenFiles

# A function that asks a person a question, and returns True if the answer is yes.
Confirm = Callable[[str], bool]
# A function that keeps the steps of a desk in a new project at a path, and returns its desk.
Keep = Callable[[str, Desk], Desk]


class Output:
    """A writer of the answers of commands, in one form. It has a method for each kind of answer."""

    def __init__(self, write: Callable[[str], None]) -> None:
        self.write = write
        # The number of the line that is answered.
        self.line_number = 0

    def tell(self, *lines: str) -> None:
        """Write an answer that is nothing but lines."""
        raise NotImplementedError

    def refusal(self, why: str) -> None:
        """Write why a line is refused, if that belongs in the answers."""

    def change(self, desk: Desk, before: Quantity, done: str = "") -> None:
        """Write the value after a change, and what was done if that needs saying."""
        raise NotImplementedError

    def limit(self, desk: Desk) -> None:
        """Write the limit of a greatest flow."""
        raise NotImplementedError

    def flows(self, desk: Desk, numbers: list[int], *, with_limit: bool) -> None:
        """Write what flows on these arcs, and which of them are of the limit."""
        raise NotImplementedError

    def places(self, desk: Desk) -> None:
        """Write what comes into each place and what goes out, and which demands are short."""
        raise NotImplementedError

    def steps(self, desk: Desk) -> None:
        """Write the steps that were made, and those that were undone."""
        raise NotImplementedError

    def trials(self, desk: Desk, trials: list[Trial]) -> None:
        """Write what each of some arcs means for the value."""
        raise NotImplementedError

    def worst(self, desk: Desk, losses: list[Loss], more: int) -> None:
        """Write what is lost without each of the worst arcs, and how many more cost something."""
        raise NotImplementedError

    def worst_places(self, desk: Desk, losses: list[Loss], more: int) -> None:
        """Write what is lost without each of the worst places, and how many more cost something."""
        raise NotImplementedError

    def worst_pairs(self, desk: Desk, losses: list[PairLoss]) -> None:
        """Write what is lost without the two arcs of each of the worst pairs."""
        raise NotImplementedError

    def worth_of_place(self, desk: Desk, loss: Loss) -> None:
        """Write what is lost without a place."""
        raise NotImplementedError

    def worth(
        self, desk: Desk, losses: list[Loss], together: Quantity, *, is_one_name: bool = True
    ) -> None:
        """Write what is lost without each of some arcs, and the value that is left without all of
        them. They have one name, or each was named."""
        raise NotImplementedError

    def what_if(self, desk: Desk, before: Quantity, value: Quantity) -> None:
        """Write the value that a change would lead to."""
        raise NotImplementedError

    def scenarios(self, project: Scenarios, *, is_list: bool) -> None:
        """Write the scenarios of a project, or what was made of the present one."""
        raise NotImplementedError

    def comparison(self, found: Comparison) -> None:
        """Write in what two scenarios differ."""
        raise NotImplementedError


@dataclass
class Context:
    """What a command acts on. `keep` makes a project of the desk, and `confirm` asks the person who
    types, if one does."""

    desk: Desk
    output: Output
    is_typed: bool = False
    keep: Keep | None = None
    confirm: Confirm | None = None
    files: WrittenFiles = field(default_factory=WrittenFiles)
