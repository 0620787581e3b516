"""A project as a program in Python changes it: steps and scenarios."""

from __future__ import annotations

from ...quantity import Quantity
from ..steps import MakePlace
from .project_answers import Amount, ProjectAnswers, refusing
from .scenarios import BASE


class OpenProject(ProjectAnswers):
    """A project of a table: its scenarios and their steps, as `dmf-plan` keeps them.

    Each step is in the project's file, or in the journal beside it, before its call returns. Its
    value is the greatest that can be sent then.

    An arc is given by its name, by its ends as in `Mill-Town`, or by its number as in `#7`; a place
    by its name. An amount is a number of the table, or a text as dmf-plan takes it: `47,3`,
    `12 l/s`, `+10 %`.

    Calls raise `ProjectFault` if a name means nothing or several things, if the request cannot be
    carried out, or if it cannot be written. Nothing has changed then. Ctrl-C, or anything else that
    interrupts a call, ends the session; the next call begins another one and makes the same steps
    again, which takes as long as they took.

    A project ends with `end`, or at the end of the `with` block that it is opened for. Until then
    no other process can write it.

    Parameters
    ----------
    path
        The file of the project.
    table
        The file of its table, if that was moved.
    program
        As that of `Network`.

    Examples
    --------
    >>> import pathlib, tempfile
    >>> table = pathlib.Path(tempfile.mkdtemp(), "pipes.csv")
    >>> rows = ["from,to,capacity,name", "lake,mill,3,Lake pipe", "mill,sea,2,Mill pipe"]
    >>> _ = table.write_text("\\n".join(rows))
    >>> with dmf.new_project(table) as project:
    ...     project.value, project.limit, project.cap("Mill pipe", "+100 %")
    (2, ['Mill pipe, mill -> sea'], 3)
    """

    __module__ = "dmf"

    # Steps, each of which returns the value after it.

    def close(self, arc: str) -> Quantity:
        """Close an arc.

        Returns
        -------
        int or Decimal
            The greatest value after this step.

        Examples
        --------
        >>> project.close("Mill pipe")
        0
        """
        with refusing():
            return self._desk.close(self._desk.network.the_arc(arc)).value

    def open(self, arc: str) -> Quantity:
        """Open a closed arc again, with the capacity that it had.

        Returns
        -------
        int or Decimal
            The greatest value after this step.

        Examples
        --------
        >>> project.close("Mill pipe"), project.open("Mill pipe")
        (0, 2)
        """
        with refusing():
            return self._desk.open(self._desk.network.the_arc(arc, is_closed=True)).value

    def cap(self, arc: str, capacity: Amount, back: Amount | None = None) -> Quantity:
        """Give an arc another capacity. One that leads both ways gets it each way.

        Parameters
        ----------
        arc
            An open arc.
        capacity
            The new capacity, or a change of the present one such as `"+10 %"`.
        back
            The capacity from its second place to its first, if that is another one.

        Returns
        -------
        int or Decimal
            The greatest value after this step.

        Examples
        --------
        >>> project.cap("Mill pipe", "+0.5")
        Decimal('2.5')
        """
        with refusing():
            network, number = self._desk.network, self._desk.network.the_arc(arc)
            arcs = network.open_arcs(number) if back is None else network.both_arcs(number)
            wanted = {
                one: self._amount(amount, network.lines[one - 1].capacity)
                for one, amount in zip(arcs, (capacity, capacity if back is None else back))
            }
            return self._desk.cap_each(wanted).value

    def add(
        self,
        tail: str,
        head: str,
        capacity: Amount,
        name: str = "",
        *,
        new_tail: bool = False,
        new_head: bool = False,
    ) -> Quantity:
        """Add an arc from one place to another.

        Parameters
        ----------
        tail, head
            The places at its ends.
        capacity
            Its capacity.
        name
            Its name, which may be empty.
        new_tail, new_head
            Whether the place at that end is new, and is made in this step.

        Returns
        -------
        int or Decimal
            The greatest value after this step.

        Raises
        ------
        ProjectFault
            If a place does not exist, or exists and is said to be new.

        Examples
        --------
        >>> project.add("lake", "sea", 4, "Canal")
        6
        >>> project.add("lake", "New Town", 3, new_head=True)
        6
        """
        with refusing():
            place = self._desk.network.names.place
            return self._desk.add(
                MakePlace(tail) if new_tail else place(tail),
                MakePlace(head) if new_head else place(head),
                self._amount(capacity),
                name,
            ).value

    def shut(self, place: str) -> Quantity:
        """Close every arc at a place, in one step.

        Returns
        -------
        int or Decimal
            The greatest value after this step.

        Examples
        --------
        >>> project.shut("mill")
        0
        """
        with refusing():
            return self._desk.shut(self._desk.network.names.place(place)).value

    def open_place(self, place: str) -> Quantity:
        """Open the arcs that were closed when a place was shut.

        Arcs to another place that is shut stay closed.

        Returns
        -------
        int or Decimal
            The greatest value after this step.

        Examples
        --------
        >>> project.shut("mill"), project.open_place("mill")
        (0, 2)
        """
        with refusing():
            return self._desk.open_place(self._desk.network.names.place(place)).value

    def undo(self, count: int = 1) -> Quantity:
        """Undo the last steps of the present scenario, all of them or none.

        Parameters
        ----------
        count
            The number of steps.

        Returns
        -------
        int or Decimal
            The greatest value after that.

        Examples
        --------
        >>> project.close("Mill pipe"), project.undo()
        (0, 2)
        """
        with refusing():
            self._desk.undo(count)
            return self.value

    def redo(self, count: int = 1) -> Quantity:
        """Redo the steps that were undone last, all of them or none.

        Parameters
        ----------
        count
            The number of steps.

        Returns
        -------
        int or Decimal
            The greatest value after that.

        Examples
        --------
        >>> project.close("Mill pipe"), project.undo(), project.redo()
        (0, 2, 0)
        """
        with refusing():
            self._desk.redo(count)
            return self.value

    # Scenarios.

    def go(self, scenario: str) -> Quantity:
        """Go to a scenario, whose steps are made again.

        Returns
        -------
        int or Decimal
            The greatest value in it.

        Examples
        --------
        >>> project.new("second"), project.close("Mill pipe"), project.go("first")
        (2, 0, 2)
        """
        with refusing():
            self._working().go(scenario)
            return self.value

    def new(self, scenario: str, begun_from: str = BASE) -> Quantity:
        """Begin a scenario, and go to it.

        Parameters
        ----------
        scenario
            The name of the new scenario.
        begun_from
            The scenario whose present steps it begins with; `base` is the network of the table.

        Returns
        -------
        int or Decimal
            The greatest value in it.

        Examples
        --------
        >>> project.new("second"), project.scenarios
        (2, ['first', 'second'])
        """
        with refusing():
            self._working().new(scenario, begun_from)
            return self.value

    def copy(self, scenario: str) -> None:
        """Copy the present scenario, and go to the copy.

        Examples
        --------
        >>> project.copy("another")
        >>> project.scenario
        'another'
        """
        with refusing():
            self._working().copy(scenario)

    def rename(self, scenario: str) -> None:
        """Give the present scenario another name.

        Examples
        --------
        >>> project.rename("wider")
        >>> project.scenario
        'wider'
        """
        with refusing():
            self._working().rename(scenario)

    def delete(self, scenario: str) -> None:
        """Delete a scenario other than the present one.

        Older versions of the file still have it.

        Examples
        --------
        >>> project.copy("another")
        >>> project.delete("first")
        >>> project.scenarios
        ['another']
        """
        with refusing():
            self._working().delete(scenario)

    def note(self, text: str) -> None:
        """Give the present scenario a note, which replaces the one that it had.

        Examples
        --------
        >>> project.note("the pump is repaired in May")
        """
        with refusing():
            self._working().note(text)

    @property
    def notes(self) -> str:
        """Return the notes of the project, with which its report begins.

        Setting them writes them.

        Examples
        --------
        >>> project.notes = "What if the mill stops?"
        >>> project.notes
        'What if the mill stops?'
        """
        return self._project.project.notes

    @notes.setter
    def notes(self, text: str) -> None:
        with refusing():
            self._working().take_notes(text)
