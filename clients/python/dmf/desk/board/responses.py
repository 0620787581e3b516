"""What a board answers a request with: the fixed pages, and why a request is refused whose form is
wrong."""

from __future__ import annotations

import json
import re
from collections.abc import Mapping
from dataclasses import dataclass
from pathlib import Path
from typing import TYPE_CHECKING, Any, Optional, Protocol, Union

if TYPE_CHECKING:
    from ..workspace import Desk

LONGEST_TEXT = 4_000
# The most arcs that a request may name.
MOST_ARCS = 100_000
Json = dict[str, Any]
# The names of fields, each with its kind.
Fields = Mapping[str, type]


class WrongForm(Exception):
    """The reason why a request is malformed."""


@dataclass(frozen=True)
class Response:
    """The answer to a request."""

    status: int
    kind: str
    body: bytes
    file: str = ""
    to: str = ""


class Answering(Protocol):
    """What answers the requests of pages: the import of a table, and then the board of its
    network."""

    @property
    def page(self) -> str:
        """Return the file of the page."""

    @property
    def turn(self) -> int:
        """Return the number of the state that pages show."""

    @property
    def picture_version(self) -> int:
        """Return the number of the picture's layout, which is another one after a place was
        moved."""

    @property
    def desk(self) -> Optional[Desk]:
        """Return the desk that is open, if one is."""

    @property
    def successor(self) -> Answering:
        """Return what answers the next request."""

    def get(self, path: str, words: dict[str, str]) -> Response:
        """Return the answer to a request that changes nothing."""

    def post(self, path: str, content: Json) -> Response:
        """Return the answer to a request that changes something, or tries it."""

    def upload(self, words: dict[str, str], data: bytes) -> Response:
        """Return the answer to a file that is sent."""

    def stop(self) -> Response:
        """Stop what is being done, for another thread that does it."""

    def end(self) -> None:
        """End what goes on beside the requests."""


# The answer to a request that is not refused.
Made = Union[Response, Json]


def answer(content: Json, status: int = 200) -> Response:
    return Response(status, "application/json", json.dumps(content).encode())


def whole(text: str, name: str) -> int:
    """Return the number that a parameter of an address has. Raise a `WrongForm`."""
    if not re.fullmatch("[0-9]{1,9}", text):
        raise WrongForm(f"{name} must be a whole number")
    return int(text)


def judge_words(
    words: dict[str, str], wanted: tuple[str, ...], optional: tuple[str, ...] = ()
) -> None:
    """Raise a `WrongForm` if the parameters of an address are not these, with or without the
    optional ones."""
    needed = [name for name in wanted if name not in optional]
    if {*words}.difference(optional) != {*needed}:
        raise WrongForm(f"expected the parameters {needed}, got {sorted(words)}")


def judge_fields(content: Json, form: Fields) -> None:
    """Raise a `WrongForm` if a request does not have exactly these fields, each of its kind: a
    whole number, a text, or a list of arcs."""
    if set(content) != set(form):
        raise WrongForm(f"expected the fields {sorted(form)}, got {sorted(content)}")
    for name, kind in form.items():
        given = content[name]
        if type(given) is not kind:
            raise WrongForm(f"the field {name} must be {KINDS[kind]}")
        if isinstance(given, str) and len(given) > LONGEST_TEXT:
            raise WrongForm(f"the field {name} is longer than {LONGEST_TEXT} characters")
        if isinstance(given, list):
            judge_arcs(given, MOST_ARCS)


# The most parts that a page shows beside a state.
MOST_SHOWN = 8


def judged_addresses(shown: object) -> list[str]:
    """Return the addresses by which a page asks for what it shows. Raise a `WrongForm` if they are
    not a list of addresses."""
    if not isinstance(shown, list) or len(shown) > MOST_SHOWN:
        raise WrongForm(f"shown must be a list of at most {MOST_SHOWN} addresses")
    if not all(isinstance(address, str) and len(address) <= LONGEST_TEXT for address in shown):
        raise WrongForm("shown must be a list of addresses")
    return shown


KINDS: dict[type, str] = {int: "a whole number", str: "a text", list: "a list of arcs"}


def judge_arcs(numbers: list[object], most: int) -> None:
    """Raise a `WrongForm` if these are not arcs, are more than `most`, or are not all different."""
    if len(numbers) > most:
        raise WrongForm(f"expected a list of at most {most} arcs")
    if not all(type(number) is int for number in numbers):
        raise WrongForm("arcs and turns must be whole numbers")
    if len(set(numbers)) < len(numbers):
        raise WrongForm("an arc is in the list twice")


LOOPBACK = "127.0.0.1"
_HOW_TO_GET_IN = """<!DOCTYPE html>
<html lang="en"><meta charset="utf-8">
<meta name="viewport" content="width=device-width, initial-scale=1"><title>dmf-board</title>
<h1>This is a dmf-board</h1>
<p>{why}.</p>
<p>The board printed its address where it was started, such as {address}. Open all of it.</p>
"""
WAY_IN = """<!DOCTYPE html>
<html lang="en"><meta charset="utf-8"><meta name="referrer" content="no-referrer">
<meta http-equiv="refresh" content="0; url={address}"><title>dmf-board</title>
<p><a href="{address}">The board</a></p>
"""


def outside(why: str) -> Response:
    """Return a page for visitors who do not have the address."""
    address = f"http://{LOOPBACK}:8000/tsCcyvcFxpZj3dU0/"
    return Response(
        403, "text/html; charset=utf-8", _HOW_TO_GET_IN.format(why=why, address=address).encode()
    )


FOLDER = Path(__file__).parent / "page"
PAGE_KINDS = {".html": "text/html", ".css": "text/css", ".js": "text/javascript"}
PAGE, IMPORT_PAGE = "index.html", "import.html"
# What the page may do: run its own scripts, have its own style, draw a picture that it made
# itself, and ask this server. Text about a network has a content type that is not a script's.
POLICY = (
    "default-src 'none'; script-src 'self'; style-src 'self'; img-src blob:; connect-src 'self'; "
    "base-uri 'none'; form-action 'none'; frame-ancestors 'none'"
)


def pages() -> dict[str, Response]:
    """Return the answers with these files, by their names."""
    found = sorted(file for file in FOLDER.iterdir() if file.suffix in PAGE_KINDS)
    return {
        file.name: Response(200, f"{PAGE_KINDS[file.suffix]}; charset=utf-8", file.read_bytes())
        for file in found
    }
