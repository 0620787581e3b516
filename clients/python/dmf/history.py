"""The changes that led to the present state of a network, and those that were undone: what each
did, and the command that makes it again."""

from __future__ import annotations

from collections.abc import Callable, Sequence
from operator import is_
from typing import Any, Tuple

from .errors import HistoryOutOfRange, NothingToRedo, NothingToUndo

# A command of a session: its word and its numbers, as ("cap", 3, 5).
Command = Tuple[Any, ...]


class Change:
    """A change: its command; the number of each arc whose capacity it changed, with its capacity
    before and after; and the arc that it added, with its capacity and the number of the closed arc
    that it replaces, if it does. A closed arc has no capacity. `value` is that of the flow after
    it."""

    __slots__ = "command", "capacities", "added", "value"

    def __init__(
        self,
        command: Command,
        capacities: Sequence[tuple[int, int | None, int | None]] = (),
        added: tuple[Any, int, int | None] | None = None,
    ) -> None:
        self.command = command
        self.capacities = capacities
        self.added = added
        self.value = 0


class _Now:
    """The present state: how many changes led to it, including forgotten ones, and the value of its
    flow. It is never changed, only replaced."""

    __slots__ = "place", "value"

    def __init__(self, place: int, value: int) -> None:
        self.place = place
        self.value = value


class _Back:
    """The state before a call, and what the call may have done since: changes that it made, those
    that it undid, and undone changes that it dropped. An error that broke the call off may have
    left each of these half done."""

    __slots__ = "now", "made", "unmade", "dropped"

    def __init__(
        self,
        now: _Now,
        made: Sequence[Change] = (),
        unmade: Sequence[Change] = (),
        dropped: Sequence[Change | Command] | None = None,
    ) -> None:
        self.now = now
        self.made = made
        self.unmade = unmade
        self.dropped = dropped


class History:
    """A list of changes, of which some are made, and the ones after them undone. At most `most` can
    be undone; of an older one the command alone is kept. `_make` and `_unmake` carry out what a
    change does here, and may do so again after an error broke them off: the present state is the
    old one until all is done."""

    def __init__(self, most: int) -> None:
        self.most = most
        # How many changes led to the beginning of each trial that is open, the outermost first.
        self.floors: tuple[int, ...] = ()
        self.begin_with(0)

    def begin_with(self, value: int) -> None:
        """Make the present state, with a flow of this value, the first one."""
        self._changes: list[Change | Command] = []
        self.moment = self._start = _Now(0, value)
        # The way back to the state before the present call, if that has changed anything.
        self._back: _Back | None = None

    def value_at(self, place: int) -> int:
        """Return the value of the flow after the first `place` changes, whose last one is kept."""
        change = self._changes[place - 1] if place else self._start
        assert isinstance(change, (Change, _Now))
        return change.value

    @property
    def place(self) -> int:
        """The number of changes that led to the present state, including forgotten ones."""
        return self.moment.place

    @property
    def value(self) -> int:
        """The value of the present flow."""
        return self.moment.value

    def has_after(self, place: int, changes: Sequence[Change]) -> bool:
        """Return True if these very changes follow the first `place` ones, made or undone."""
        there = self._changes[place : place + len(changes)]
        return len(there) == len(changes) and all(map(is_, there, changes))

    def changes_after(self, place: int) -> tuple[Change, ...]:
        """Return the changes that are made after the first `place` ones. None of them may be
        forgotten."""
        made = self._changes[place : self.moment.place]
        return tuple([change for change in made if isinstance(change, Change)])

    def commands(self) -> list[Command]:
        """Return the commands that lead from the first state to the present one, through every
        change that was undone."""
        commands = [
            change.command if isinstance(change, Change) else change for change in self._changes
        ]
        undone = len(commands) - self.place
        return [*commands, ("undo", undone)] if undone else commands

    def begin_call(self) -> None:
        """Make the present state the one that `roll_back` restores, and forget what the change past
        the bound did."""
        self._back, place = None, self.moment.place
        oldest = self._changes[place - self.most - 1] if place > self.most else None
        if isinstance(oldest, Change):
            self._changes[place - self.most - 1] = oldest.command

    def note(self, change: Change, value: int) -> None:
        """Record and make a change that the session made, which left a flow of this value, and drop
        the changes that were undone."""
        now = self.moment
        self._back = _Back(now, made=[change], dropped=self._changes[now.place :])
        change.value = value
        self._changes[now.place :] = [change]
        self._make(change)
        self.moment = _Now(now.place + 1, value)

    def redo(self, count: int, value: int) -> None:
        """Redo `count` changes, which exist, up to a flow of this value."""
        now = self.moment
        changes = [
            change
            for change in self._changes[now.place : now.place + count]
            if isinstance(change, Change)
        ]
        self._back = _Back(now, made=changes)
        for change in changes:
            self._make(change)
        self.moment = _Now(now.place + count, value)

    def undo(self, count: int, value: int) -> None:
        """Undo `count` changes, which exist, back to a flow of this value."""
        now = self.moment
        changes = [
            change
            for change in self._changes[now.place - count : now.place]
            if isinstance(change, Change)
        ]
        self._back = _Back(now, unmade=changes)
        for change in reversed(changes):
            self._unmake(change)
        self.moment = _Now(now.place - count, value)

    def roll_back(self) -> None:
        """Go back to the state before the present call, however far the call got."""
        back = self._back
        if back is not None:
            for change in reversed(back.made):
                self._unmake(change)
            for change in back.unmade:
                self._make(change)
            if back.dropped is not None:
                self._changes[back.now.place :] = back.dropped
            self.moment = back.now
            self._back = None

    def _make(self, change: Change) -> None:
        raise NotImplementedError

    def _unmake(self, change: Change) -> None:
        raise NotImplementedError

    def take_changes(self, other: History, again: Callable[[Any], Any]) -> None:
        """Take over the changes of another history, which this state already has. `again` makes its
        own handles of the added arcs."""
        self._changes = [
            _with_own_arc(change, again) if isinstance(change, Change) else change
            for change in other._changes
        ]
        self.moment, self._back = _Now(other.place, other.value), None

    def forget_undone(self) -> None:
        """Forget the changes that were undone, so that none of them can be redone."""
        del self._changes[self.place :]

    def judge_change(self) -> None:
        """Raise `HistoryOutOfRange` if the outermost trial could not be undone after one more
        change."""
        if self.floors and self.place - self.floors[0] >= self.most:
            why = (
                f"history out of range: of what is tried out, {self.most} changes can be taken "
                "back, and not one more"
            )
            raise HistoryOutOfRange(why)

    def judge_undo(self, count: int) -> None:
        """Raise `NothingToUndo` if that would undo a forgotten change, or one from before the
        innermost trial."""
        if self.floors and self.place - count < self.floors[-1]:
            made = self.place - self.floors[-1]
            raise NothingToUndo(f"undo {count}, of {made} changes that are tried out")
        # A session that was restarted may have kept changes that are forgotten here.
        undone = self._changes[max(0, self.place - count) : self.place]
        for change in undone:
            if not isinstance(change, Change):
                raise NothingToUndo(f"undo {count}")

    def judge_redo(self, count: int) -> None:
        """Raise `NothingToRedo` if fewer than `count` changes were undone."""
        if count > len(self._changes) - self.place:
            raise NothingToRedo(f"redo {count}")


def _with_own_arc(change: Change, again: Callable[[Any], Any]) -> Change:
    if change.added is None:
        return change
    arc, capacity, replaced = change.added
    copy = Change(change.command, change.capacities, (again(arc), capacity, replaced))
    copy.value = change.value
    return copy
