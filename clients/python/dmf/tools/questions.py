"""Ask at a terminal what a table leaves open."""

from __future__ import annotations

import argparse
import shlex
import sys
from collections.abc import Callable
from typing import TYPE_CHECKING, Optional, Union

from ..tables.setting_question import SettingQuestion
from ..text.lexical import display

if TYPE_CHECKING:
    from ..tables.column_question import ColumnQuestion

Ask = Callable[["Question"], Optional[str]]
Question = Union["ColumnQuestion", SettingQuestion]


def asker(words: argparse.Namespace) -> Ask | None:
    """Return what asks what a table leaves open, or None if nobody is there to answer."""
    is_typed = all(stream and stream.isatty() for stream in (sys.stdin, sys.stderr))
    return ask if is_typed and not getattr(words, "json", False) else None


def ask(question: Question) -> str | None:
    """Return the answer to a question, or None if there is no answer."""
    if isinstance(question, SettingQuestion):
        return _ask_setting(question)
    return _ask_column(question)


def _ask_setting(question: SettingQuestion) -> str | None:
    setting = question.setting
    _tell(question.told())
    for word, what in setting.choices:
        _tell(f"  {word}  {what}")
    while answer := _typed(f"{question.option} ({setting.expected}): "):
        try:
            setting.read(answer)
        except ValueError as fault:
            _tell(str(fault))
        else:
            _tell(f"next time: --{question.option} {answer}")
            return answer
    return None


def _ask_column(question: ColumnQuestion) -> str | None:
    """Return the title of the chosen column, or None if none is chosen."""
    from ..tables.column_question import shown_cells

    _tell(question.told().partition("; ")[0])
    width = max(len(name) for name, _ in question.choices)
    for number, (name, cells) in enumerate(question.choices, 1):
        _tell(f"  {number}  {name:{width}}  {shown_cells(cells)}")
    titles = [name for name, _ in question.choices]
    while answer := _typed("Number or title: "):
        chosen = titles[int(answer) - 1] if _is_number(answer, len(titles)) else answer
        if chosen in titles:
            _tell(f"next time: --{question.sought} {shlex.quote(chosen)}")
            return chosen
        _tell(f"{answer!r} is not one of these columns")
    return None


def _typed(prompt: str) -> str:
    """Return the line that is typed after a prompt."""
    sys.stderr.write(prompt)
    sys.stderr.flush()
    return sys.stdin.readline().strip()


def _is_number(answer: str, most: int) -> bool:
    return answer.isdecimal() and len(answer) < 6 and 1 <= int(answer) <= most


def _tell(text: str) -> None:
    sys.stderr.write(display(text) + "\n")
    sys.stderr.flush()
