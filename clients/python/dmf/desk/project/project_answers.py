"""What an open project answers to a program in Python, and how it goes on after an interruption."""

from __future__ import annotations

import contextlib
import os
from collections.abc import Iterator
from decimal import Decimal
from typing import NamedTuple, TypeVar, Union

from ...errors import FileFault, OptionFault, TableFault
from ...files import write_file
from ...quantity import Quantity
from ...session.base import Program
from ..analysis import cheapest, prices
from ..expressions import amount
from ..steps import DeskFault
from ..workspace import Desk
from .comparison import Comparison, compare
from .opener import project_desk
from .report import report
from .scenarios import Scenarios, project_of
from .strict_json import ProjectFault

Path = Union[str, "os.PathLike[str]"]
# A quantity of the table, or a text as dmf-plan takes it: `47,3`, `12 l/s`, `+10 %`.
Amount = Union[str, int, float, Decimal]
Own = TypeVar("Own", bound="ProjectAnswers")


class Made(NamedTuple):
    """A step that was made: what was done, in words, and the greatest value after it."""

    text: str
    value: Quantity


class Purchase(NamedTuple):
    """A purchase on a way to a greater value: how much wider each arc gets, what that costs, what
    everything so far costs, and the greatest value then."""

    wider: dict[str, Quantity]
    cost: Decimal
    total: Decimal
    value: Quantity


@contextlib.contextmanager
def refusing() -> Iterator[None]:
    """Raise refusals of the desk, and faults of a table, as a `ProjectFault`."""
    try:
        yield
    except DeskFault as fault:
        raise ProjectFault(str(fault)) from None
    except TableFault as fault:
        raise ProjectFault("\n".join(fault.lines())) from None
    except (FileFault, OptionFault) as fault:
        raise ProjectFault(str(fault)) from None


class ProjectAnswers:
    """What an open project answers, and its session."""

    __module__ = "dmf"

    def __init__(self, path: Path, table: str | None = None, program: Program = None) -> None:
        with refusing():
            self._take(project_desk(os.fspath(path), table or "", program))

    @classmethod
    def _of(cls: type[Own], desk: Desk) -> Own:
        made = cls.__new__(cls)
        made._take(desk)
        return made

    def _take(self, desk: Desk) -> None:
        self._shown = desk
        self._is_over = False
        self.path = desk.network.subject.path

    @property
    def _desk(self) -> Desk:
        """Return the desk, on a new session with the same steps if something has broken off the one
        that it had."""
        if self._shown.has_ended and not self._is_over:
            self._shown.begin_again()
        return self._shown

    @property
    def _project(self) -> Scenarios:
        return project_of(self._shown)

    def _working(self) -> Scenarios:
        """Return the project, whose desk has a session."""
        return project_of(self._desk)

    def __enter__(self: Own) -> Own:
        return self

    def __exit__(self, *_: object) -> None:
        self.end()

    def __repr__(self) -> str:
        return f"<Project {self.path!r}: scenario {self.scenario!r}, value {self._shown.value}>"

    def end(self) -> None:
        """End the session, and write the file.

        Raises
        ------
        OSError
            If the file cannot be written. The journal has every step then.

        Examples
        --------
        >>> project.end()
        """
        self._is_over = True
        self._shown.end()

    @property
    def news(self) -> list[str]:
        """Return what was found when the project was opened, or when a scenario was gone to.

        Such as: the table has changed, a step means nothing any more, or another process has the
        project open, so that this one can only read it.

        Examples
        --------
        >>> project.news[1]
        "the source is 'lake', the one place that nothing leads to"
        """
        return self._shown.news

    @property
    def scenarios(self) -> list[str]:
        """Return the names of the scenarios.

        Examples
        --------
        >>> project.scenarios
        ['first']
        """
        return [it.name for it in self._project.project.scenarios]

    @property
    def scenario(self) -> str:
        """Return the name of the present scenario.

        Examples
        --------
        >>> project.scenario
        'first'
        """
        return self._project.scenario.name

    @property
    def value(self) -> Quantity:
        """Return the greatest value that can be sent, in the unit of the table.

        Examples
        --------
        >>> project.value
        2
        """
        return self._desk.value

    @property
    def unit(self) -> str:
        """Return the unit of the table's numbers, or an empty text if it is not known.

        Examples
        --------
        >>> project.unit
        ''
        """
        return self._desk.network.measure.told_unit

    @property
    def limit(self) -> list[str]:
        """Return the arcs of the smallest minimum cut, by their names.

        Examples
        --------
        >>> project.limit
        ['Mill pipe, mill -> sea']
        """
        return [self._desk.network.names.arc(number) for number in self._desk.cut_arcs()]

    @property
    def steps(self) -> list[Made]:
        """Return the steps of the present scenario, each with the value after it.

        Steps that were undone are left out.

        Examples
        --------
        >>> project.cap("Mill pipe", 1)
        1
        >>> project.steps
        [Made(text='Mill pipe carries 1', value=1)]
        """
        return [Made(step.text, step.value) for step in self._desk.steps[1 : self._desk.at]]

    def flow(self, arc: str) -> Quantity:
        """Return the flow on an open arc.

        On one that leads both ways it is below 0 if it goes back.

        Raises
        ------
        ProjectFault
            If no open arc has the name, or several have.

        Examples
        --------
        >>> project.flow("Lake pipe")
        2
        """
        with refusing():
            return self._desk.flow(self._desk.network.the_arc(arc))

    def cheapest(
        self, to: Amount | None = None, column: str = "", *, of_seconds: bool = False
    ) -> list[Purchase]:
        """Return a cheap way to a greater value, found greedily: a cheaper one may exist.

        Nothing changes. Each purchase takes a few solves.

        Parameters
        ----------
        to
            The value to reach; by default twice the present one.
        column
            The column of the table that has the costs; by default one called `cost` or alike.
        of_seconds
            Whether the costs are those of a second arc, instead of those of a unit more.

        Returns
        -------
        list of Purchase
            What to buy, in this order.

        Raises
        ------
        ProjectFault
            If no column can be the cost.

        Examples
        --------
        >>> [(it.wider, it.cost, it.value) for it in project.cheapest(3)]
        [({'Mill pipe, mill -> sea': Decimal('1')}, Decimal('5.0'), 3)]
        """
        with refusing():
            desk, name = self._desk, self._desk.network.names.arc
            way = cheapest(
                desk,
                prices(desk, column, is_second=of_seconds),
                None if to is None else self._amount(to),
            )
            return [
                Purchase({name(number): by for number, by in it.wider}, it.cost, it.total, it.value)
                for it in way.bought
            ]

    def compare(self, first: str, second: str) -> Comparison:
        """Compare two scenarios, whose steps are made again for that.

        Parameters
        ----------
        first, second
            Their names; `base` is the network of the table.

        Returns
        -------
        Comparison
            Their values and limits, and the arcs that differ. `lines()` has it in words.

        Examples
        --------
        >>> value = project.close("Mill pipe")
        >>> [arc.arc for arc in project.compare("base", "first").arcs]
        ['Lake pipe, lake -> mill', 'Mill pipe, mill -> sea']
        """
        with refusing():
            return compare(self._working(), first, second)

    def report(self, path: Path) -> None:
        """Write a page in HTML to hand on.

        It has all scenarios with their limits and pictures, and the arcs of the present one whose
        loss costs most. All steps are made again for it, and each arc is tried.

        Parameters
        ----------
        path
            The file, which is overwritten if it exists.

        Raises
        ------
        OSError
            If the file cannot be written.

        Examples
        --------
        >>> project.report(folder / "report.html")
        """
        with refusing():
            text = report(self._desk)
        write_file(os.fspath(path), text.encode())

    def _amount(self, given: Amount, present: Quantity | None = None) -> Quantity:
        return amount(
            given if isinstance(given, str) else format(Decimal(str(given)), "f"),
            self._desk.network.measure,
            present,
        )
