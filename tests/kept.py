"""Keeps the cases that failed, so that they run from then on."""

from __future__ import annotations

import re
from collections.abc import Iterable
from pathlib import Path
from typing import NamedTuple

from built import Case

# So many cases are kept of a run, the shortest ones: a fault may show in hundreds.
MOST_KEPT = 3
FOUND_FILE = Path(__file__).resolve().parent / "cases" / "found.py"


class Found(NamedTuple):
    """A case that failed, and the request for memory that was refused then, or 0."""

    case: Case
    refused: int = 0


def shown_cases(reports: Iterable[str]) -> list[str]:
    """The cases that these reports of pytest show last, which are as small as they were made, and
    of those the shortest."""
    shown = [
        re.findall(r"^\W*E?\W*(Found\(case=.*\))$", report, re.MULTILINE) for report in reports
    ]
    return sorted((cases[-1] for cases in shown if cases), key=len)[:MOST_KEPT]


def with_cases(text: str, cases: Iterable[str]) -> str:
    """The text of FOUND_FILE with these cases at the end of its list, each once."""
    rows = [f"    {case},\n" for case in dict.fromkeys(cases)]
    return text.removesuffix("]\n") + "".join(row for row in rows if row not in text) + "]\n"
