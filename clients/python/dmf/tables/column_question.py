"""The question that is asked if two columns of a table may be meant, or none can be."""

from __future__ import annotations

import argparse
import shlex
from collections.abc import Sequence

from ..errors import TableFault
from ..text.spelling import cleaned, quoted_name
from .headings import MOST_LISTED

# How many cells of a column are shown, with how many characters.
MOST_SHOWN, LONGEST_SHOWN = 2, 20


class ColumnQuestion(TableFault):
    """Why nothing is read: two columns of a table may be meant, or none can be. `column` is what is
    looked for, and `choices` are the columns that may be it, with some of their cells."""

    def __init__(
        self,
        reason: str,
        line: int,
        column: str,
        choices: Sequence[tuple[str, Sequence[str]]],
        is_arcs: bool,
    ) -> None:
        super().__init__(reason, line)
        self.sought = column
        self.choices = list(choices)
        self.is_arcs = is_arcs
        self.option = column if is_arcs else ""
        self.answers = [(name, shown_cells(cells)) for name, cells in self.choices]
        self.may_be_matrix = False
        # Whether a call of Python gets the question, which then names the keywords of the call.
        self.is_call = False

    def __reduce__(self) -> tuple[object, ...]:
        return (
            ColumnQuestion,
            (self.reason, self.line, self.sought, self.choices, self.is_arcs),
            self.__dict__,
        )

    def settle(self, words: argparse.Namespace, answer: str) -> None:
        """Put an answer among the arguments."""
        words.titles = {**words.titles, self.sought: answer}

    def lines(self) -> list[str]:
        """Return the question, and a line for each column."""
        shown = [
            (self._option(name), shown_cells(cells)) for name, cells in self.choices[:MOST_LISTED]
        ]
        width = max((len(option) for option, _ in shown), default=0)
        rest = [f"  and {len(self.choices) - MOST_LISTED} more"] * (len(self.choices) > MOST_LISTED)
        matrix = "matrix=True" if self.is_call else "--matrix"
        rest += [f"  {matrix}, if the titles are the places where rows lead"] * self.may_be_matrix
        return [
            self.told(),
            *(f"  {option:{width}}  {cells}".rstrip() for option, cells in shown),
            *rest,
        ]

    def _option(self, name: str) -> str:
        if not self.is_arcs:
            return quoted_name(name)
        if self.is_call:
            return f"columns={{{self.sought!r}: {name!r}}}"
        return f"--{self.sought} {shlex.quote(name)}"


def shown_cells(cells: Sequence[str]) -> str:
    """Return some cells of a column as messages show them."""
    short = [
        cell if len(cell) <= LONGEST_SHOWN else f"{cell[:LONGEST_SHOWN]}.."
        for cell in map(cleaned, cells)
        if cell
    ]
    return f"as in {', '.join(short[:MOST_SHOWN])}" if short else "has no cell"
