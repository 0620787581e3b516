"""What a desk's steps are made of: places and arcs, changes, steps, trials, and why the desk
refuses a request. All amounts are quantities, as the table has them."""

from __future__ import annotations

from dataclasses import dataclass, field
from functools import cached_property
from typing import NamedTuple, Union

from .. import history as session
from ..errors import Error
from ..quantity import Quantity, plain_text

Node = Union[int, str]


class DeskFault(Exception):
    """Why the desk refuses a request. It changes nothing."""


class UnknownPlace(DeskFault):
    """The refusal of a name that no place has."""


class Place(NamedTuple):
    """A place: arcs into it enter the node `entry`, and arcs out of it leave the node `exit`. The
    two differ if the place has a limit."""

    entry: int
    exit: int


class DeskArc(NamedTuple):
    """An arc as it is: its ends by their numbers, and its capacity, or the one that it had before
    it was closed. `was_shut` is True if it was closed because a place was shut, and `is_replaced`
    if it was closed and then opened again, as another arc. `is_unlimited` is True if it stands for
    a source that gives, or a sink that takes, as much as the arcs there carry. `first` is the
    number that an arc had before it was opened again, or 0."""

    tail: int
    head: int
    capacity: Quantity
    is_closed: bool = False
    was_shut: bool = False
    is_replaced: bool = False
    is_unlimited: bool = False
    first: int = 0

    @property
    def is_shut(self) -> bool:
        """Return True if it is closed because a place was shut."""
        return self.was_shut and not self.is_replaced

    @property
    def is_partly_closed(self) -> bool:
        return self.is_closed

    def room(self, flow: Quantity) -> Quantity:
        """Return what it can carry the way that this flow goes."""
        return self.capacity

    def way(self, flow: Quantity) -> DeskArc:
        """Return the arc that this flow goes over."""
        return self

    def is_full(self, flow: Quantity) -> bool:
        """Return True if this flow fills it."""
        return 0 < flow == self.capacity


class Marks(NamedTuple):
    """What the network itself does not know: the nodes that are shut; the unlimited sources and
    sinks that got a limit, by the first numbers of their arcs; and the names of the places that
    were made, in the order of their nodes, which are those after the table's."""

    shut: frozenset[int] = frozenset()
    limited: frozenset[int] = frozenset()
    made: tuple[str, ...] = ()


@dataclass(frozen=True)
class Solve:
    pass


@dataclass(frozen=True)
class ArcChange:
    """A change of one arc, by its number."""

    arc: int


@dataclass(frozen=True)
class Cap(ArcChange):
    capacity: Quantity


class Follow(Cap):
    """An unlimited source or sink follows the arcs there."""


class Close(ArcChange):
    """The arc is closed."""


class Reopen(ArcChange):
    """The arc is added again, as it was before it was closed."""


@dataclass(frozen=True)
class MakePlace:
    """A place of this name is made, without arcs. Its node is the one after those that exist."""

    name: str


@dataclass(frozen=True)
class Add:
    """An arc is added; `is_back` if it is the way back of the one that was added before it."""

    tail: int
    head: int
    capacity: Quantity
    name: str | None = None
    is_back: bool = False


@dataclass(frozen=True)
class Shut:
    node: int


Change = Union[Solve, Close, Cap, MakePlace, Add, Reopen, Shut]


@dataclass(frozen=True)
class Step:
    """A step: what was done, in words; the changes that were asked for; the value of the flow after
    it; and the marks after it. `made` are the changes in the network's history, by which one sees
    whether the session has made the step; None if it never did. `by` is the difference to the value
    before, in words, and empty for the first step."""

    text: str
    changes: tuple[Change, ...]
    value: Quantity
    marks: Marks
    made: tuple[session.Change, ...] | None = field(default=None, repr=False, compare=False)
    by: str = field(default="", repr=False, compare=False)

    @cached_property
    def told_value(self) -> str:
        """Return the value as a text."""
        return plain_text(self.value)

    @property
    def is_solved(self) -> bool:
        return isinstance(self.changes[-1], Solve)


class Second(NamedTuple):
    """The greatest value if a second arc of its capacity is added beside an arc, or None if the sum
    of the capacities would exceed 64 bits."""

    arc: int
    doubled: Quantity | None


class Trial(NamedTuple):
    """The greatest values if an arc is closed, and if it has a second one as in `Second`."""

    arc: int
    closed: Quantity
    doubled: Quantity | None


def unforeseen(error: BaseException) -> str:
    """Return why a request failed, also for an error that nothing foresaw."""
    if isinstance(error, (Error, DeskFault, OSError)):
        return str(error)
    return f"failed: {type(error).__name__}{f' ({error})' if str(error) else ''}"
