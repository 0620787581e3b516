"""A project keeps a desk: each act of the desk is in its file, or in the journal beside it, before
it is shown, and one can go between scenarios.

Each step solves after its change, so that the value of a scenario is always the greatest. A
scenario that is gone to makes its steps on the session of the others, which has undone theirs.
"""

from __future__ import annotations

import contextlib
from collections.abc import Collection, Iterable, Iterator, Mapping, Sequence
from dataclasses import dataclass, field, replace
from decimal import Decimal
from itertools import takewhile
from typing import Any, cast

from ...errors import Refused
from ...quantity import decimals, plain_text
from ...session.base import Program
from ...tables.loader import LoadedProblem
from ...text.lexical import display
from ...text.spelling import quoted_name
from ..answers import Answers
from ..desk_state import DeskState
from ..live_network import LiveNetwork
from ..scale import finer
from ..steps import Change, DeskFault, Follow, Solve, Step
from ..workspace import Desk
from .acts import changes_of, place_meant, requests_of
from .records import ArcName, KeptStep, KeptTable, Project, Request, Scenario
from .schema import said_scenario, said_step, said_table
from .storage import Act, ProjectFile, Record
from .strict_json import ProjectFault


@dataclass
class Differences:
    """The differences between two problems of a table: in words, a line for each row, and the arcs
    whose number of alike ones has changed, so that a place among them means nothing."""

    told: list[str] = field(default_factory=list)
    unsure: set[ArcName] = field(default_factory=set)


# The network of the table, without a step.
BASE = "base"
FIRST = "first"


@dataclass
class Base:
    """The network that the scenarios of a project begin from, and what to say about it. `table` is
    the project's table as it is now, if it has changed since, and `found` are the differences."""

    subject: LoadedProblem
    told: list[str] = field(default_factory=list)
    table: KeptTable | None = None
    found: Differences = field(default_factory=Differences)

    @property
    def network(self) -> str:
        return self.subject.text.decode("utf-8", "surrogateescape")


@dataclass(frozen=True)
class Replay:
    """A scenario whose steps were made again: the scenario as it is now, the differences to what
    the file had, in words, and the state of a desk that shows it."""

    scenario: Scenario
    told: tuple[str, ...]
    state: DeskState

    @property
    def acts(self) -> list[Act]:
        """Return what is to be kept of it."""
        return [("carried", said_scenario(self.scenario))] * bool(self.told)


def finest(subject: LoadedProblem, project: Project) -> LoadedProblem:
    """Return the subject with the least scale in which each amount of a project is whole, as far as
    it goes."""
    steps = [
        step for scenario in project.scenarios for step in (*scenario.steps, *scenario.left_out)
    ]
    amounts = [
        Decimal(request[2]) for step in steps for request in step.requests if len(request) > 2
    ]
    with contextlib.suppress(DeskFault):
        return finer(subject, max(amounts, key=decimals)) if amounts else subject
    return subject


class Scenarios:
    """The scenarios of a project, which keep what is done on a desk. Raises what `Desk` raises."""

    def __init__(self, file: ProjectFile, base: Base, program: Program = None) -> None:
        self.file = file
        try:
            self.desk = Desk(
                finest(base.subject, file.record.project), with_solve=True, program=program
            )
        except Refused as fault:
            of = f"the table {base.table.file.path}" if base.table else "network"
            raise ProjectFault(f"{file.path}: {of}: {fault}") from None
        self.desk.state = replace(
            self.desk.state, record=file.record, news=(*file.news, *base.told)
        )
        file.news.clear()
        self.desk.keeper = self
        if base.table:
            self._take_table(base, base.table)
        else:
            self._show(self._replayed(self.scenario))

    @classmethod
    def of(cls, desk: Desk) -> Scenarios | None:
        """Return the project that keeps a desk, if one does."""
        return desk.keeper if isinstance(desk.keeper, cls) else None

    @property
    def record(self) -> Record:
        """Return the project with its place in the journal, in the present state."""
        return cast(Record, self.desk.state.record)

    @property
    def project(self) -> Project:
        return self.record.project

    @property
    def scenario(self) -> Scenario:
        """Return the scenario that is worked on."""
        return self._found(self.project.present)

    # The methods of a keeper, which the desk calls.

    def judge(self, back: int = 0) -> None:
        """Raise a `DeskFault` if nothing can be written, or if the scenario has fewer steps of its
        own than are to be undone."""
        left = self.desk.at - 1 - self.scenario.inherited
        if back and not self.desk.trials and back > left:
            raise DeskFault(f"this scenario has {left} step{'s' * (left != 1)} of its own to undo")
        if self.file.why_not:
            why = f"the project is read-only, since {self.file.why_not}"
            raise DeskFault(f"{why}; `what-if` tries, and changes nothing")

    def requests(self, network: LiveNetwork, changes: Sequence[Change]) -> tuple[Request, ...]:
        """Return what changes ask for, by names. Raise a `DeskFault` if it could not be found
        again."""
        self.judge()
        requests = tuple(requests_of(network, changes))
        if changes_of(network, requests) != [
            change for change in changes if not isinstance(change, Solve)
        ]:
            raise DeskFault(
                "its arcs have no names by which they could be found again, so it cannot be kept"
            )
        return requests

    def with_step(self, after: DeskState, requests: Any) -> DeskState:
        step = after.steps[-1]
        return self._after(
            after, ("step", said_step(KeptStep(step.text, plain_text(step.value), requests)))
        )

    def with_place(self, after: DeskState) -> DeskState:
        return self._after(after, ("at", after.at - 1))

    def write(self, before: DeskState, after: DeskState) -> None:
        """Write to the journal the acts that lead from one state to another. Raise a `DeskFault` if
        that fails."""
        if self.file.why_not:
            # It is only looked at.
            return
        try:
            self.file.write(cast(Record, before.record), cast(Record, after.record))
        except OSError as error:
            where = display(self.file.path)
            raise DeskFault(
                f"nothing was done, since it could not be written to {where}: {error.strerror}"
            ) from None

    def end(self) -> None:
        """Write the project. Raise an OSError if that fails; the journal has all of it then."""
        self.file.end(self.record)

    def _after(self, state: DeskState, *acts: Act) -> DeskState:
        """Return a state with the record of some acts, which led to it."""
        # What is only looked at stays as it was kept.
        kept = [act for act in acts if act[0] == "go"] if self.file.why_not else acts
        record = self.file.after(cast(Record, state.record), kept)
        return replace(state, record=record, scenario=record.project.present)

    def _keep(self, *acts: Act, by: int = 1) -> None:
        """Keep what is said of the project, which leaves the network as it is."""
        state = self.desk.state
        self.desk.take(self._after(replace(state, turn=state.turn + by), *acts))

    def take_steps(self, steps: Iterable[Step], turn: int = 0) -> None:
        """Make the steps of another desk on the same network, and go on from its turn. A step that
        only solves is not a step here."""
        self.desk.state = replace(self.desk.state, turn=self.desk.turn + turn)
        for step in steps:
            asked: list[Change] = [
                change for change in step.changes if not isinstance(change, (Solve, Follow))
            ]
            if asked:
                self.desk.step(step.text, asked)

    # Scenarios.

    def kept_value(self, scenario: Scenario) -> str:
        """Return the greatest value of a scenario, as it was kept."""
        return (
            scenario.steps[scenario.at - 1].value
            if scenario.at
            else plain_text(self.desk.steps[0].value)
        )

    def _found(self, name: str) -> Scenario:
        scenario = self.project.scenario(name)
        if scenario is None:
            names = ", ".join(quoted_name(it.name) for it in self.project.scenarios)
            raise DeskFault(f"no scenario is called {quoted_name(name)}; the scenarios are {names}")
        return scenario

    def _judge_new_name(self, name: str) -> None:
        if not name or name == BASE:
            why = f"{BASE} is the network of the table, which no scenario can be called"
            raise DeskFault("a scenario needs a name" if not name else why)
        if self.project.scenario(name):
            raise DeskFault(f"a scenario called {quoted_name(name)} already exists")

    def _judge_no_trial(self) -> None:
        if self.desk.trials:
            raise DeskFault("a trial is open; `keep` or `drop` ends it")

    def go(self, name: str) -> None:
        """Go to a scenario, and report what differs from its stored values."""
        scenario = self._found(name)
        self._judge_no_trial()
        if scenario is not self.scenario:
            self._show(self._replayed(scenario), ("go", name))

    def new(self, name: str, begun_from: str = BASE) -> None:
        """Begin a scenario from the network of the table, or with the steps that another scenario
        has now, and go to it. Its `undo` does not take those back."""
        self.judge()
        self._judge_no_trial()
        self._judge_new_name(name)
        if begun_from == BASE:
            self._come(Scenario(name))
            return
        other = self._found(begun_from)
        self._come(Scenario(name, other.steps[: other.at], other.at, begun_from, other.at))

    def copy(self, name: str) -> None:
        """Make a copy of the present scenario, with its steps, those that were undone and its note,
        and go to it."""
        self.judge()
        self._judge_no_trial()
        self._judge_new_name(name)
        self._come(replace(self.scenario, name=name))

    def _come(self, scenario: Scenario) -> None:
        self._show(self._replayed(scenario), ("new", said_scenario(scenario)))

    def rename(self, name: str) -> None:
        """Give the present scenario another name."""
        self.judge()
        self._judge_new_name(name)
        self._keep(("name", name))

    def delete(self, name: str) -> None:
        """Delete a scenario that is not the present one."""
        self.judge()
        if self._found(name) is self.scenario:
            raise DeskFault(f"{quoted_name(name)} is the present scenario; go to another first")
        self._keep(("delete", name))

    def note(self, text: str) -> None:
        """Give the present scenario a note."""
        self.judge()
        self._keep(("note", text))

    def take_notes(self, text: str) -> None:
        """Give the project notes."""
        self.judge()
        self._keep(("notes", text))

    def take_positions(self, positions: Mapping[str, tuple[float, float] | None]) -> None:
        """Keep the positions of places in a picture, by their names; None removes one."""
        self._keep_positions("positions", positions)

    def take_moved(self, positions: Mapping[str, tuple[float, float] | None]) -> None:
        """Keep where places were moved by hand, by their names; None takes it back."""
        self._keep_positions("moved", positions)

    def _keep_positions(
        self, word: str, positions: Mapping[str, tuple[float, float] | None]
    ) -> None:
        self.judge()
        for name in positions:
            place_meant(self.desk.network, name)
        self._keep((word, {**positions}), by=0)

    def take_layout(
        self,
        origin: str,
        positions: Mapping[str, tuple[float, float]],
        moved: Mapping[str, tuple[float, float]],
    ) -> None:
        """Keep these positions instead of all earlier ones, and those of places that were moved by
        hand. `origin` says where they come from."""
        self.judge()
        layout = "layout", {"from": origin, "positions": {**positions}}
        self._keep(layout, *[("moved", {**moved})] * bool(moved), by=0)

    @contextlib.contextmanager
    def visiting(self, name: str) -> Iterator[Desk]:
        """Yield a desk that shows another scenario, or the network of the table, for the block. The
        present one stays as it is."""
        scenario = Scenario(BASE) if name == BASE else self._found(name)
        if scenario is self.scenario:
            yield self.desk
            return
        replay = self._replayed(scenario)
        self.desk.tell(*replay.told)
        with self.desk.beside(replace(replay.state, scenario=name)) as shown:
            yield shown

    def _show(self, replay: Replay, *acts: Act) -> None:
        """Show a scenario whose steps were made, after acts that lead there. Say in what it differs
        from what was written, and write it as it is."""
        state = self.desk.state
        after = replace(
            replay.state, news=(*state.news, *replay.told), turn=state.turn + 1, record=state.record
        )
        self.desk.take(self._after(after, *acts, *replay.acts))

    def _replayed(self, scenario: Scenario, unsure: Collection[ArcName] = ()) -> Replay:
        """Make the steps of a scenario beside the present state, as far as they mean something,
        those too that are undone. The first ones that the present scenario has made too stay as
        they are."""
        state, said = self.desk.state, f"scenario {quoted_name(scenario.name)}, step"
        made = self.scenario.steps[: state.at - 1]
        same = len([*takewhile(lambda pair: pair[0] == pair[1], zip(made, scenario.steps))])
        steps, left_out, told = [*scenario.steps[:same]], [*scenario.left_out], list[str]()
        at, inherited = scenario.at, scenario.inherited
        begun = replace(
            state, steps=state.steps[: 1 + same], at=1 + same, floors=(), answers=Answers()
        )
        with self.desk.beside(begun) as desk:
            for number, step in enumerate(scenario.steps[same:], same + 1):
                try:
                    value = plain_text(
                        desk.step(step.text, changes_of(desk.network, step.requests, unsure)).value
                    )
                except (DeskFault, Refused) as fault:
                    told.append(
                        f"{said} {number}, {display(step.text)}: it is left out, since {fault}"
                    )
                    left_out.append(step)
                    at -= number <= scenario.at
                    inherited -= number <= scenario.inherited
                    continue
                if value != step.value:
                    told.append(
                        f"{said} {number}, {display(step.text)}: "
                        f"the value is {value}, and {step.value} was kept"
                    )
                steps.append(replace(step, value=value))
            desk.go_to(1 + at)
        now = replace(
            scenario, steps=tuple(steps), left_out=tuple(left_out), at=at, inherited=inherited
        )
        return Replay(now, tuple(told), replace(desk.state, floors=(1 + inherited,)))

    def _take_table(self, base: Base, table: KeptTable) -> None:
        """Take a table that has changed, and carry all scenarios over to it, the present one
        last."""
        acts: list[Act] = [("table", {"table": said_table(table), "network": base.network})]
        *others, present = sorted(self.project.scenarios, key=lambda it: it is self.scenario)
        for scenario in others:
            replay = self._replayed(scenario, base.found.unsure)
            self.desk.tell(*replay.told)
            acts += replay.acts
        self._show(self._replayed(present, base.found.unsure), *acts)


def project_of(desk: Desk) -> Scenarios:
    """Return the project that keeps a desk. Raise a `DeskFault` if none does."""
    project = Scenarios.of(desk)
    if project is None:
        raise DeskFault("only a project has scenarios; keep the steps in one")
    return project
