"""The options that describe a table, in every tool, and the arguments that name its file."""

from __future__ import annotations

import argparse
import os
import re
from collections.abc import Callable
from decimal import Decimal
from typing import Any, NoReturn

from ..errors import OptionFault
from ..tables.setting_question import SETTINGS, Setting
from ..tables.titles import COLUMNS
from ..text.spelling import cleaned, nearest, proposal
from .questions import asker


def encoding(word: str) -> str:
    """Return the name of a text encoding."""
    try:
        b"A".decode(word)
    except UnicodeDecodeError:
        # It must be a text encoding in which this byte is not a character.
        pass
    except (LookupError, UnicodeError):
        raise argparse.ArgumentTypeError(f"not an encoding of text: {word}") from None
    return word


def scale(word: str) -> Decimal:
    """Return the factor by which numbers are multiplied."""
    if not re.fullmatch(r"[0-9]{1,20}(\.[0-9]{1,20})?", word) or not Decimal(word):
        raise argparse.ArgumentTypeError(f"not a decimal number above 0: {word}")
    return Decimal(word)


def read_by(setting: Setting) -> Callable[[str], Any]:
    """Return what reads the word of an option."""

    def read(word: str) -> Any:
        try:
            return setting.read(word)
        except ValueError as fault:
            raise argparse.ArgumentTypeError(str(fault)) from None

    return read


def add_options(parser: argparse.ArgumentParser) -> None:
    """Add the options that describe a table. Their help is in tables.txt instead of in each tool's
    help."""
    group = parser.add_argument_group(
        "tables",
        "dmf help tables (or python3 -m dmf help tables) lists the options for tables.",
    )

    def add(name: str, **how: Any) -> None:
        group.add_argument(name, help=argparse.SUPPRESS, **how)

    for column in COLUMNS:
        add(f"--{column}", metavar="TITLE")
    add("--ignore", metavar="TITLE", action="append", default=[])
    add("--missing", metavar="AMOUNT", choices=["0", "unlimited"], default="")
    add("--matrix", action="store_true")
    add("--decimal", metavar="SIGN", choices=[".", ","], default="")
    add("--both-ways", action="store_true")
    add("--scale", metavar="K", type=scale)
    for end in "source", "sink":
        add(f"--{end}", metavar="PLACE[=LIMIT]", action="append", default=[])
    for option in "sources", "sinks", "node-limits":
        add(f"--{option}", metavar="FILE")
    add("--places", metavar="FILE", dest="place_table")
    for option, setting in SETTINGS.items():
        add(f"--{option}", metavar=setting.metavar, type=read_by(setting))
    add("--raw-names", action="store_true")
    add("--encoding", metavar="NAME", type=encoding)


def parsed(
    parser: argparse.ArgumentParser, given: list[str], fixed: int | None = 0
) -> argparse.Namespace:
    """Return the arguments. The first `fixed` words that are not options, or all if it is None, are
    `fixed`; `places` are the source and the sink after them. Arguments that contradict each other
    are refused."""
    end = given.index("--") if "--" in given else len(given)
    words, unknown = parser.parse_known_intermixed_args(given[:end])
    # A help ends before this, and needs nothing that reads tables.
    from ..tables.loader import names_terminals

    if unknown:
        options = [name[2:] for name in parser._option_string_actions if name.startswith("--")]
        similar = [f"--{name}" for name in nearest(unknown[0].lstrip("-"), options)]
        parser.error(f"unrecognized arguments: {' '.join(unknown)}{proposal(similar)}")
    # After -- no argument is an option, so the name of a place may begin with a dash there.
    places = [*words.places, *given[end + 1 :]]
    fixed = len(places) if fixed is None else fixed
    words.fixed, words.places = places[:fixed], places[fixed:]
    if (
        words.fixed
        and words.places
        and not os.path.exists(words.fixed[0])
        and os.path.exists(path := " ".join(places))
    ):
        parser.error(f'put a path with spaces in quotes: "{path}"')
    if words.places and names_terminals(words) or len(words.places) not in (0, 2):
        parser.error(
            "name a source and a sink, as two words or by options such as --source and --sink"
        )
    if words.places:
        words.source, words.sink = words.places[:1], words.places[1:]
    titles = {column: getattr(words, column) for column in COLUMNS}
    words.titles = {column: title for column, title in titles.items() if title is not None}
    words.ask = asker(words)
    if len({cleaned(title) for title in words.titles.values()}) < len(words.titles):
        parser.error("two of --tail, --head, --capacity and --name name the same column")
    return words


def add_words(
    parser: argparse.ArgumentParser,
    form: str = "FILE [SOURCE SINK]",
    what: str = "a table of arcs, or a problem's file",
) -> None:
    """Add the arguments that name the file, and the options that describe a table in it."""
    parser.add_argument("places", metavar=form, nargs="*", help=what)
    add_options(parser)


def words_of(
    parser: argparse.ArgumentParser,
    given: list[str],
    *,
    ends_are_words: bool = True,
    needs_file: Callable[[argparse.Namespace], bool] = lambda words: True,
) -> argparse.Namespace:
    """Return the arguments, with the path of the file; it is empty if none is named, and the
    arguments need none. The words after the file are the source and the sink, or `others` unless
    `ends_are_words`."""
    words = parsed(parser, given, 1 if ends_are_words else None)
    if not words.fixed and needs_file(words):
        parser.error("name the file of a table or a problem")
    words.path, *words.others = words.fixed or [""]
    return words


class RaisingParser(argparse.ArgumentParser):
    """A parser that raises an `OptionFault` for a wrong argument, instead of ending the tool."""

    def error(self, message: str) -> NoReturn:
        raise OptionFault(message)

    def parse_known_intermixed_args(self, args: Any = None, namespace: Any = None) -> Any:
        # The parser of Python takes these dashes off, and leaves no value.
        for word in args or ():
            if found := re.fullmatch("(--[a-z-]+)=--", word):
                self.error(f"argument {found[1]}: two dashes are not a value")
        return super().parse_known_intermixed_args(args, namespace)
