"""The exceptions of the package. Each reason for which `dmf` refuses a command or a problem is a
class of its own."""

from __future__ import annotations

import re
from collections.abc import Mapping, Sequence
from typing import Any, ClassVar


def shown_value(thing: object) -> str:
    """Return the repr of a caller's value for a message, also if Python refuses to write one of its
    numbers."""
    try:
        return repr(thing)
    except ValueError:
        return f"<{type(thing).__name__} with a number of more than 4,300 digits>"


class Error(Exception):
    """The base of the exceptions of this package."""


class SessionEnded(Error):
    """The session has ended: its program was killed or failed, or it was ended. The network can
    answer nothing until `begin_again`."""


class NoProgram(Error, FileNotFoundError):
    """There is no program `dmf`, or the one that was found, or the library that DMF_LIBRARY names,
    cannot be run here, or is of another version than this package needs."""


class AmbiguousArc(Error, LookupError):
    """Several open arcs, or several closed arcs and no open one, have this key or these ends. Each
    has a handle that names it."""


class ArcIsOpen(Error, ValueError):
    """The arc to open is open. Nothing was added."""


class NotAnArc(Error, ValueError):
    """A row of arcs is neither (tail, head, capacity) nor (tail, head, capacity, key), or something
    in it cannot be hashed."""


class NoCapacity(Error, LookupError):
    """An edge of a graph lacks the attribute with its capacity."""


class Unbounded(Error, OverflowError):
    """The flow from the source to the sink has no bound, since a path has only arcs of infinite
    capacity."""


class HistoryOutOfRange(Error, ValueError):
    """The number of changes that can be undone must be a whole number from 0 to 1,000,000."""


class JobsOutOfRange(Error, ValueError):
    """The number of programs that a sweep may run at once is not a whole number from 1 on."""


class NameNotWritable(Error, ValueError):
    """A name cannot stand in a comment of a problem: `dmf.read` would read it as another one."""


class UsedByTwoThreads(Error, RuntimeError):
    """Two threads used a network at once. The later call did nothing, and the session goes on."""


class UsedByTwoProcesses(Error, RuntimeError):
    """A forked process used a network of its parent process. The call did nothing, and the session
    goes on."""


class Refused(Error):
    """The program refuses a command, or a problem. Each of its reasons is a class of its own; a
    reason that this package does not know is a plain `Refused`. `text` is the reason in the
    program's words, `what` is what it refused, and `line` is the faulty line of the problem, if
    that was read from a file."""

    text = "refused"
    line: int | None = None
    kinds: ClassVar[dict[str, type[Refused]]] = {}

    def __init_subclass__(cls) -> None:
        cls.text = re.sub(r"(?<=.)([A-Z]|\d+)", r" \1", cls.__name__).lower()
        Refused.kinds[cls.text] = cls

    def __init__(self, what: str = "") -> None:
        """Build the message from the reason's text and, if it is given, what was refused."""
        super().__init__(f"{self.text}: {what}" if what else self.text)
        self.what = what

    def __reduce__(self) -> tuple[Any, ...]:
        return type(self), (self.what,), self.__dict__

    @staticmethod
    def of(text: str, what: str) -> Refused:
        """Return the exception for a reason in the program's words, with what was refused."""
        if text in Refused.kinds:
            return Refused.kinds[text](what)
        refused = Refused(f"{text}: {what}" if what else text)
        refused.text = text
        return refused

    # The `__str__` of a KeyError puts quotation marks around the message.
    __str__ = Exception.__str__


class NoSuchNode(Refused, KeyError):
    """The network has no such node."""


class NoSuchArc(Refused, KeyError):
    """The network has no such arc: there never was one, or the change that added it was undone."""


class ArcIsClosed(Refused):
    """The arc was closed. Only `undo` opens it again."""


class NotANumber(Refused, ValueError):
    """The value is not a whole number from 0 on."""


class NumberTooLarge(Refused, ValueError):
    """A number exceeds 2^64 - 1."""


class CapacitiesPast64Bits(Refused, OverflowError):
    """The sum of all capacities would exceed 2^64 - 1."""


class NothingToUndo(Refused):
    """There are fewer changes than that, or some of them are forgotten. None of them is undone."""


class NothingToRedo(Refused):
    """Fewer changes than that were undone. None of them is redone."""


class FlowIsNotGreatest(Refused):
    """There is no minimum cut yet, since some flow has a larger value. Call `solve` first."""


class NoMemory(Refused, MemoryError):
    """A request for memory was refused."""


class CountOutOfRange(Refused):
    """A network has fewer nodes than 2 or more than 16,777,216, or more arcs than 134,217,728."""


class UnknownCommand(Refused):
    """The program does not know the command: it is older than this package."""


class TooManyArcs(Refused):
    """The network has 134,217,728 arcs already, or a problem has more arc lines than it says."""


class SourceAndSinkAreTheSame(Refused, ValueError):
    """One node cannot be both the source and the sink."""


# The other reasons for which the program refuses a problem's text, or a line of a session. Each has
# its own class.
class LineTooLong(Refused):
    ...


class WrongNumberOfFields(Refused):
    ...


class ProblemLineExpected(Refused):
    ...


class SecondProblemLine(Refused):
    ...


class UnknownLine(Refused):
    ...


class NotAMaxProblem(Refused):
    ...


class NeitherSourceNorSink(Refused):
    ...


class TerminalNamedTwice(Refused):
    ...


class ArcBeforeSourceAndSink(Refused):
    ...


class SourceOrSinkMissing(Refused):
    ...


class TooFewArcs(Refused):
    ...


# The most further lines that a message names for one fault.
MOST_LINES = 9


class TableFault(Error, ValueError):
    """Why a table is refused: the reason, the line and the column, counted from 1, and the path of
    its file, as far as they are known; and the `others` that were found with it, of which `untold`
    more are not kept. `more_lines` have the same fault, and `column_name` is what the column is
    called, as `'Q max'`. `row_names` are what rows are called that do not have a line of their own,
    by their lines. If one value of an option settles it, that is the `option`, and `answers`
    are the values that it may have, each with what that means."""

    def __init__(self, reason: str, line: int = 0, path: str = "", column: int = 0) -> None:
        super().__init__(reason, line, path, column)
        self.reason = reason
        self.line = line
        self.path = path
        self.column = column
        self.others: list[TableFault] = []
        self.untold = 0
        self.more_lines: Sequence[int] = ()
        self.column_name = ""
        self.row_names: Mapping[int, str] = {}
        self.option = ""
        self.answers: Sequence[tuple[str, str]] = ()

    def __str__(self) -> str:
        return "\n".join(self.lines())

    def told(self) -> str:
        """Return this fault alone, in one line."""
        place = ", ".join(filter(None, [self.path, self.told_cell()]))
        return f"{place}: {self.reason}" if place else self.reason

    def told_cell(self) -> str:
        """Return the line and the column in words, as far as they are known."""
        column = f"column {self.column_name or self.column}" if self.column and self.line else ""
        return ", ".join(filter(None, [self._told_lines(), column]))

    def _told_lines(self) -> str:
        names = self.row_names
        if not self.more_lines:
            return names.get(self.line) or (f"line {self.line}" if self.line else "")
        lines = (self.line, *self.more_lines[:MOST_LINES])
        shown = [names.get(line) or str(line) for line in lines]
        rest = len(self.more_lines) - MOST_LINES
        last = f"{rest} more" if rest > 0 else shown.pop()
        return f"{'' if names else 'lines '}{', '.join(shown)} and {last}"

    def lines(self) -> list[str]:
        """Return a line for this fault, for each other one, and for those that are only counted."""
        told = [fault.told() for fault in (self, *self.others)]
        return told + [f"and {self.untold} more"] * (self.untold > 0)

    def name_path(self, path: str) -> None:
        """Set the file of the faults that do not name one."""
        for fault in (self, *self.others):
            fault.path = fault.path or path


class FileFault(Exception):
    """Why a file, or a standard stream, cannot be read or written."""


class OptionFault(Exception):
    """Why an option does not fit the file that it is given for."""


# All exceptions by their names. A traceback names each as its caller does: dmf.NoSuchArc.
PUBLIC = {
    name: thing
    for name, thing in list(globals().items())
    if isinstance(thing, type) and issubclass(thing, Error)
}
for _exception in PUBLIC.values():
    _exception.__module__ = __package__
