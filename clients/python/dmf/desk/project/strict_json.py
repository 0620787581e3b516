"""A text in JSON, read strictly: what is missing, or should not be there, is refused with its
place."""

from __future__ import annotations

import json
import re
from typing import Any

from ...errors import Error
from .records import VERSION

# The most digits of a whole number: those of 64 bits.
_MOST_DIGITS = 20
# Surrogates that stand for no byte of a file.
_LONE = re.compile("[\ud800-\udc7f\udd00-\udfff]")


class ProjectFault(Error, ValueError):
    """Why a project is refused, with the file and the place in it."""

    __module__ = Error.__module__


class Fields:
    """The fields of an object, which are read one after another."""

    def __init__(self, content: object, place: str) -> None:
        if not isinstance(content, dict):
            raise ProjectFault(f"{place or 'the file'} is not an object")
        self._left = dict(content)
        self.place = place

    def at(self, name: str) -> str:
        return f"{self.place}.{name}" if self.place else name

    def take(self, name: str, kind: type, default: object = None) -> Any:
        """Return the field of a name. Raise a `ProjectFault` if it is missing and there is no
        default."""
        if name not in self._left:
            if default is None:
                raise ProjectFault(f"{self.at(name)} is missing")
            return default
        found = self._left.pop(name)
        if type(found) is not kind:
            raise ProjectFault(f"{self.at(name)} is {_told(found)}, and not {_KINDS[kind]}")
        return found

    def count(self, name: str, most: int | None = None) -> int:
        """Return a whole number from 0 up."""
        found: int = self.take(name, int)
        if found < 0 or most is not None and found > most:
            raise ProjectFault(
                f"{self.at(name)} is {found}, and not from 0 to "
                f"{'any number' if most is None else most}"
            )
        return found

    def texts(self, name: str) -> list[str]:
        found: list[Any] = self.take(name, list, [])
        for at, text in enumerate(found):
            if type(text) is not str:
                raise ProjectFault(f"{self.at(name)}[{at}] is {_told(text)}, and not a text")
        return found

    def end(self) -> None:
        """Raise a `ProjectFault` if a field was not taken."""
        if self._left:
            raise ProjectFault(
                f"{self.at(next(iter(self._left)))} is not a field of a project of version "
                f"{VERSION}"
            )


_KINDS: dict[type, str] = {
    str: "a text",
    int: "a whole number",
    list: "a list",
    dict: "an object",
    bool: "true or false",
}


def _told(content: object) -> str:
    return "nothing" if content is None else _KINDS.get(type(content), "a number")


def read_json(text: bytes) -> Any:
    """Return the content of a text in JSON, in which no field occurs twice. Raise a `ProjectFault`
    with the line and the column."""

    def single(pairs: list[tuple[str, Any]]) -> dict[str, Any]:
        found = dict(pairs)
        if len(found) < len(pairs):
            twice = next(name for at, (name, _) in enumerate(pairs) if name in dict(pairs[:at]))
            raise ProjectFault(f"the field {twice!r} occurs twice")
        return found

    def refuse(name: str) -> None:
        raise ProjectFault(f"{name} is not a JSON number")

    try:
        hooks: dict[str, Any] = {
            "object_pairs_hook": single,
            "parse_constant": refuse,
            "parse_int": _whole_number,
        }
        content = json.loads(text.decode(), **hooks)
        _judge_texts(content, "")
        return content
    except json.JSONDecodeError as fault:
        is_cut = fault.pos >= len(fault.doc.rstrip()) or fault.msg.startswith("Unterminated string")
        where = (
            "the text ends before it is complete"
            if is_cut
            else fault.msg[:1].lower() + fault.msg[1:]
        )
        raise ProjectFault(f"line {fault.lineno}, column {fault.colno}: {where}") from None
    except UnicodeDecodeError as fault:
        raise ProjectFault(f"byte {fault.start + 1} is not UTF-8") from None
    except RecursionError:
        raise ProjectFault("it is nested too deeply") from None


def _whole_number(digits: str) -> int | float:
    """Return a whole number, or a float if it has more digits than any here."""
    return int(digits) if len(digits) <= _MOST_DIGITS else float(digits)


def _judge_texts(content: object, place: str) -> None:
    """Raise a `ProjectFault` if a text could not be written to a file again."""
    if isinstance(content, str):
        if _LONE.search(content):
            raise ProjectFault(
                f"{place or 'the file'} has a lone surrogate, which is half a character"
            )
    elif isinstance(content, dict):
        for name, part in content.items():
            _judge_texts(name, f"the name of a field in {place or 'the file'}")
            _judge_texts(part, f"{place}.{name}" if place else name)
    elif isinstance(content, list):
        for at, part in enumerate(content):
            _judge_texts(part, f"{place}[{at}]")
