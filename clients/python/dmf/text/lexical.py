"""The lines, fields and numbers of texts, the bounds of a problem, and how texts are shown.

A text is bytes. Only line feeds end its lines, and only spaces and tabs separate its fields, even
where Unicode or a terminal sees other line ends or spaces.
"""

from __future__ import annotations

import functools
import re

# The array types of the columns: node numbers; capacities and flows.
NODES, AMOUNTS = "I", "Q"
# The array type of a column that may have NO_NODE as an entry. No column of nodes accepts it.
NUMBERS, NO_NODE = "i", -1

LARGEST = 2**64 - 1
LONGEST = len(str(LARGEST))
MOST_NODES = 16_777_216
MOST_ARCS = 134_217_728
NODE, ARC = "node", "arc"
# A network with more arcs than this is shown as a table, since nobody would find an arc in its
# picture.
MOST_DRAWN = 300


@functools.cache
def _unshown() -> re.Pattern[str]:
    """Return a pattern for what cannot be shown: control characters, line separators, marks that
    change the direction of the text, and lone surrogates."""
    return re.compile(
        "[\x00-\x1f\x7f-\x9f\u061c\u200e\u200f\u2028-\u202e\u2066-\u2069\ud800-\udfff]"
    )


def display(name: str) -> str:
    """Return a text that is safe to show: a character that would control a terminal, end a line or
    change the direction of the text is written as `\x1b`, and so on."""
    return name if name.isascii() and name.isprintable() else _unshown().sub(_escaped, name)


def _escaped(found: re.Match[str]) -> str:
    code = ord(found[0])
    return f"\\x{code:02x}" if code < 256 else f"\\u{code:04x}"


FIELD = re.compile(rb"[^ \t]+")


class Fault(Exception):
    """Why a field or a line is refused: `reason` is the text that `dmf` prints for it, and `field`
    is the faulty field, if there is one."""

    def __init__(self, reason: str, about: bytes = b"") -> None:
        super().__init__(reason)
        self.reason = reason
        self.field = about

    def __str__(self) -> str:
        return self.reason


class TextFault(Fault):
    """The first fault of a text with the number of its line, from 1: `line 4: not a number`."""

    def __init__(self, line: int, reason: str, about: bytes = b"") -> None:
        super().__init__(reason, about)
        self.line = line

    def __str__(self) -> str:
        return f"line {self.line}: {self.reason}"


def lines(text: bytes) -> list[bytes]:
    """Return the lines of a text, each without its line feed and a carriage return directly before
    it. What follows the last line feed is a line too unless it is empty."""
    pieces = text.split(b"\n")
    rest = pieces.pop()
    if b"\r" in text:
        pieces = [piece.removesuffix(b"\r") for piece in pieces]
    return pieces + [rest] if rest else pieces


def fields(line: bytes) -> list[bytes]:
    """Return the longest runs of bytes that are neither space nor tab."""
    return FIELD.findall(line)


def read_number(digits: bytes) -> int:
    """Return the number in a field, from 0 to 2^64 - 1. Raises a `Fault` with the reason `not a
    number` or `number too large`."""
    if not digits.isdigit():
        raise Fault("not a number", digits)
    if len(digits) < LONGEST:
        return int(digits)
    significant = digits.lstrip(b"0")
    if len(significant) > LONGEST or (value := int(significant or b"0")) > LARGEST:
        raise Fault("number too large", digits)
    return value
