"""Lines, fields and numbers of a text, and the faults for which a text is refused."""

from __future__ import annotations

import re
from typing import Protocol, TypeVar

LARGEST = 2**64 - 1
T = TypeVar("T")
T_co = TypeVar("T_co", covariant=True)


class Reading(Protocol[T_co]):
    """What takes the fields of the lines of a text one after the other, and then says what they
    stand for together."""

    def take(self, fields: list[bytes]) -> None:
        ...

    def end(self) -> T_co:
        ...


class Fault(Exception):
    """Why a line, a field or a whole text is refused. The text is the message."""


class LineFault(Fault):
    """The fault of a text, with the number of its line."""

    def __init__(self, line: int, fault: Fault) -> None:
        super().__init__(f"line {line}: {fault}")


def judge(*judgements: tuple[bool, str]) -> None:
    """Raises the first fault of those that hold. They stand in the order of docs/FORMATS.md."""
    for holds, text in judgements:
        if holds:
            raise Fault(text)


def lines_of(text: bytes) -> list[bytes]:
    """Each line of a text: the pieces between line feeds, without one carriage return directly
    before a line feed."""
    *ended, rest = text.split(b"\n")
    return [line.removesuffix(b"\r") for line in ended] + ([rest] if rest else [])


def fields_of(line: bytes) -> list[bytes]:
    """The longest runs of bytes other than space and tab."""
    return re.findall(rb"[^ \t]+", line)


def number_of(field: bytes) -> int:
    if not re.fullmatch(rb"[0-9]+", field):
        raise Fault("not a number")
    digits = field.lstrip(b"0") or b"0"
    if len(digits) > len(str(LARGEST)) or int(digits) > LARGEST:
        raise Fault("number too large")
    return int(digits)


def read_text(text: bytes, reading: Reading[T]) -> T:
    """What a text stands for: `reading` takes the fields of its lines one after the other, but for
    blank lines and comments, and then says what they stand for together."""
    lines = lines_of(text)
    for place, line in enumerate(lines, 1):
        fields = fields_of(line)
        if fields and not fields[0].startswith(b"c"):
            try:
                reading.take(fields)
            except Fault as fault:
                raise LineFault(place, fault) from None
    try:
        return reading.end()
    except Fault as fault:
        raise LineFault(len(lines) + 1, fault) from None


def written(*fields: object) -> bytes:
    """A line of these fields."""
    return " ".join(map(str, fields)).encode() + b"\n"
