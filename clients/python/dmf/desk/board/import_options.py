"""What a person says on the page of an import, and the command line that says the same."""

from __future__ import annotations

import argparse
import shlex
from collections.abc import Iterator, Sequence
from decimal import Decimal

from ...tables.loader import split_path
from ...tables.setting_question import SETTINGS
from ...tables.titles import COLUMNS
from .responses import LONGEST_TEXT, Json, WrongForm

# The options that a page sets, each with its kind: a text, a list of texts, or yes and no. The text
# of an option of which nothing is said is empty.
TEXTS = (*COLUMNS, "decimal", "missing", "scale", *SETTINGS, "encoding")
LISTS = ("ignore", "source", "sink")
FLAGS = ("matrix", "both_ways")
SHEET = "sheet"
KINDS: dict[str, type] = {
    **dict.fromkeys((SHEET, *TEXTS), str),
    **dict.fromkeys(LISTS, list),
    **dict.fromkeys(FLAGS, bool),
}
# Those that only a command line sets.
FILES = {
    "sources": "sources",
    "sinks": "sinks",
    "node_limits": "node-limits",
    "place_table": "places",
    "map": "map",
}
OTHER_FLAGS = ("raw_names", "keep")
# The most texts of a list.
MOST_TEXTS = 2_000


def nothing_said() -> Json:
    """Return the options of which nothing is said."""
    return {name: kind() for name, kind in KINDS.items()}


def options_of(words: argparse.Namespace) -> Json:
    """Return what arguments say of the options that a page sets."""
    titles: dict[str, str] = words.titles
    said = {name: titles.get(name, getattr(words, name, None)) for name in TEXTS}
    return {
        **nothing_said(),
        **{name: _text(value) for name, value in said.items()},
        **{name: [*getattr(words, name)] for name in LISTS},
        **{name: bool(getattr(words, name)) for name in FLAGS},
        SHEET: split_path(words.path)[1] if words.path else "",
    }


def _text(value: object) -> str:
    if isinstance(value, Decimal):
        return f"{value:f}"
    return "" if value is None else str(value)


def others_of(words: argparse.Namespace) -> list[str]:
    """Return the arguments that a page does not set."""
    found = [
        it
        for name, option in FILES.items()
        if (path := getattr(words, name, None)) is not None
        for it in _option(option, path)
    ]
    return found + [
        f"--{name.replace('_', '-')}" for name in OTHER_FLAGS if getattr(words, name, False)
    ]


def judge_options(said: object) -> Json:
    """Return the options that a page sends. Raise a `WrongForm` if they are not those."""
    if not isinstance(said, dict) or set(said) != set(KINDS):
        raise WrongForm(f"options must have the fields {sorted(KINDS)}")
    for name, kind in KINDS.items():
        texts = said[name] if isinstance(said[name], list) else [said[name]]
        if type(said[name]) is not kind or len(texts) > MOST_TEXTS:
            raise WrongForm(f"the option {name} must be {FORMS[kind]}")
        if kind is not bool and not all(
            isinstance(text, str) and len(text) <= LONGEST_TEXT for text in texts
        ):
            raise WrongForm(f"the option {name} must have texts of {LONGEST_TEXT} characters")
    return said


FORMS: dict[type, str] = {
    str: "a text",
    list: f"a list of at most {MOST_TEXTS} texts",
    bool: "true or false",
}


def arguments(path: str, options: Json, others: Sequence[str] = ()) -> list[str]:
    """Return the arguments that name a file and say these options."""
    file = f"{path}#{options[SHEET]}" if options[SHEET] else path
    return [f"./{file}" if file.startswith("-") else file, *_said(options), *others]


def _said(options: Json) -> Iterator[str]:
    for name in TEXTS:
        yield from _option(name, options[name]) if options[name] else ()
    for name in LISTS:
        for text in options[name]:
            yield from _option(name, text)
    yield from (f"--{name.replace('_', '-')}" for name in FLAGS if options[name])


def _option(name: str, text: str) -> list[str]:
    """Return an option with its value, which may begin as an option does."""
    return [f"--{name}={text}"] if text.startswith("-") or not text else [f"--{name}", text]


def command_line(given: Sequence[str]) -> str:
    """Return the command that opens a board with these arguments."""
    return shlex.join(["dmf", "board", *given])
