"""The options of the tools, which the texts of faults name, as the keywords of `dmf.read_table`."""

from __future__ import annotations

import contextlib
import re
from collections.abc import Iterator

from ..errors import TableFault
from .column_question import ColumnQuestion
from .setting_question import SettingQuestion

# Each option as a fault names it, and the keyword that stands for it. What is in quotation marks,
# such as a cell, stays as it is.
_VALUE = r"('(?:[^'\\]|\\.)*'|\"(?:[^\"\\]|\\.)*\")"
_KEYWORDS = [
    (r"--tail, --head and --capacity", "columns="),
    (r"--(?:tail|head|capacity|name)\b", "columns="),
    (r"--decimal ([.,])", r'decimal="\1"'),
    (r"--ignore " + _VALUE, r"ignore=[\1]"),
    (r"--ignore", "ignore="),
    (r"--(needs|source|sink) " + _VALUE, r"\1=\2"),
    (r"--missing unlimited", 'missing="unlimited"'),
    (r"--(missing|scale) ([0-9]+)", r"\1=\2"),
    (r"--(velocity|tanks|tolerance|needs|shift|daily)\b", r"\1="),
    (r"--matrix", "matrix=True"),
    (r"--both-ways", "both_ways=True"),
    (r"--source NAME=LIMIT", "source={NAME: LIMIT}"),
]
_PATTERNS = [(re.compile(rf"(?<!['\"]){option}"), keyword) for option, keyword in _KEYWORDS]


def in_keywords(text: str) -> str:
    """Return the text of a fault with keywords in place of options."""
    for pattern, keyword in _PATTERNS:
        text = pattern.sub(keyword, text)
    return text


@contextlib.contextmanager
def naming_keywords() -> Iterator[None]:
    """Rewrite the faults of a call, for the block or the decorated function, so that they name its
    keywords."""
    try:
        yield
    except TableFault as fault:
        for it in (fault, *fault.others):
            it.reason = in_keywords(it.reason)
            it.args = (it.reason, *it.args[1:])
            if isinstance(it, (ColumnQuestion, SettingQuestion)):
                it.is_call = True
        raise
