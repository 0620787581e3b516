"""Cases of a sweep that are made from other things, one from each."""

from __future__ import annotations

import operator
from collections.abc import Callable, Generator, Iterable, Iterator, Sequence
from typing import Any, Union

from ..network import Network
from ..session.base import Part
from .copies import Command

# What is tried: a list of commands, or a function that is given a network to change.
Case = Union[Iterable[Command], Callable[[Network[Any]], object]]


class Each(Iterator[Case]):
    """Cases that are made from these things one by one, when they are needed. Their number is known
    if that of the things is. `part` is what each case leaves out, if it does only that."""

    def __init__(
        self, make: Callable[[Any], Case], things: Iterable[Any], part: Part | None = None
    ) -> None:
        self._is_listed = isinstance(things, Sequence)
        self._cases: Iterator[Case] = map(make, things)
        self._left = operator.length_hint(things)
        self.part = part

    def __next__(self) -> Case:
        case = next(self._cases)
        self._left = max(0, self._left - 1)
        return case

    def __length_hint__(self) -> int:
        return self._left

    def make_all(self) -> list[Case]:
        """Make all cases now if the things are a list, and return them. They are still to be taken,
        and then the error that kept one from being made."""
        made: list[Case] = []
        if self._is_listed:
            failed: Exception | None = None
            try:
                made.extend(self._cases)
            except Exception as error:
                failed = error
            self._cases = _taken(made, failed)
        return made


def _taken(made: list[Case], failed: Exception | None) -> Generator[Case, None, None]:
    yield from made
    if failed is not None:
        raise failed
