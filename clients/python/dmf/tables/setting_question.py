"""Questions for what a file leaves open beside its columns: how fast water flows, whether tanks
give water, and how long the shifts of a roster are."""

from __future__ import annotations

import argparse
import re
import shlex
from collections.abc import Callable, Sequence
from decimal import Decimal
from typing import Any, NamedTuple, TypeVar

from ..errors import TableFault
from .column_question import ColumnQuestion

Read = TypeVar("Read")


class Setting(NamedTuple):
    """A setting that an option gives: the word for its value in the help, the function that reads
    it, what is expected, and the values that are proposed, each with its meaning."""

    metavar: str
    read: Callable[[str], Any]
    expected: str = ""
    choices: tuple[tuple[str, str], ...] = ()


def amount_of(word: str) -> Decimal:
    """Read a decimal number that is not below 0. Raises a ValueError."""
    if not re.fullmatch(r"[0-9]{1,9}(\.[0-9]{1,12})?|\.[0-9]{1,12}", word):
        raise ValueError(f"not a decimal number: {word}")
    return Decimal(word)


def velocity_of(word: str) -> Decimal:
    """Read a velocity, which is above 0. Raises a ValueError."""
    velocity = amount_of(word)
    if not velocity:
        raise ValueError("a velocity is above 0")
    return velocity


def tanks_of(word: str) -> str:
    """Read what tanks are. Raises a ValueError."""
    if word not in ("source", "none"):
        raise ValueError(f"not source or none: {word}")
    return word


def shift_of(word: str) -> Decimal:
    """Read how long a shift is, which is above 0. Raises a ValueError."""
    length = amount_of(word)
    if not length:
        raise ValueError("a shift is longer than 0")
    return length


def daily_of(word: str) -> str:
    """Read how many shifts one person works in a day. Raises a ValueError."""
    if word != "all" and not re.fullmatch("[1-9][0-9]{0,2}", word):
        raise ValueError(f"not a whole number above 0, or all: {word}")
    return word


SETTINGS = {
    "velocity": Setting(
        "M/S", velocity_of, "m/s, a number above 0", (("1.5", "m/s, or another velocity"),)
    ),
    "tanks": Setting(
        "WHAT",
        tanks_of,
        "source or none",
        (
            ("source", "they give water without a limit, as reservoirs do"),
            ("none", "they are places that water only passes"),
        ),
    ),
    "tolerance": Setting("DISTANCE", amount_of),
    "needs": Setting("ROW", str, "the first text of the row"),
    "shift": Setting(
        "HOURS",
        shift_of,
        "a number above 0",
        (("8", "as many hours, or another number in the unit of that column"),),
    ),
    "daily": Setting(
        "SHIFTS",
        daily_of,
        "a whole number above 0, or all",
        (("1", "nobody works more than one shift a day"), ("all", "a day has no limit")),
    ),
}


class SettingQuestion(TableFault):
    """A question that stops the reading: an option must say what the file does not."""

    # A tool asks for it whatever table it is of.
    is_arcs = True

    def __init__(self, reason: str, option: str, answers: Sequence[tuple[str, str]] = ()) -> None:
        super().__init__(reason)
        self.option = option
        self.answers = answers or self.setting.choices
        # Whether a call of Python gets the question, which then names the keywords of the call.
        self.is_call = False

    def __reduce__(self) -> tuple[object, ...]:
        return SettingQuestion, (self.reason, self.option, self.answers), self.__dict__

    @property
    def setting(self) -> Setting:
        """Return what the option settles."""
        return SETTINGS[self.option]

    def lines(self) -> list[str]:
        """Return the question, and a line for each answer."""
        shown = [(self._option(word), what) for word, what in self.answers]
        width = max(len(option) for option, _ in shown)
        return [self.told(), *(f"  {option:{width}}  {what}" for option, what in shown)]

    def _option(self, word: str) -> str:
        if self.is_call:
            return f"{self.option}={word if word[:1].isdigit() else repr(word)}"
        return f"--{self.option} {shlex.quote(word)}"

    def settle(self, words: argparse.Namespace, answer: str) -> None:
        """Put an answer among the arguments."""
        setattr(words, self.option, self.setting.read(answer))


def velocity_question(unit: str) -> SettingQuestion:
    """Return the question for the velocity of water in pipes."""
    return SettingQuestion(
        f"how fast does water flow at most? The file has diameters, and no capacities (in {unit})",
        "velocity",
    )


def answered(words: argparse.Namespace, read: Callable[[], Read]) -> Read:
    """Return what is read with these arguments. Where somebody is there to answer, they are asked
    for what cannot be settled, and the answer is one of the arguments from then on."""
    while True:
        try:
            return read()
        except (ColumnQuestion, SettingQuestion) as question:
            question.name_path(words.path or "")
            answer = words.ask(question) if words.ask and question.is_arcs else None
            if answer is None:
                raise
            question.settle(words, answer)
