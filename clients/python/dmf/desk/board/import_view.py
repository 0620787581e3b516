"""What the page of an import shows: the file, what is said of it, its first rows, what each column
is taken for, what is open or wrong, and the answer."""

from __future__ import annotations

import argparse
import os
import re
from collections.abc import Iterator, Sequence
from dataclasses import dataclass, field
from itertools import islice
from typing import Any, Optional

from ...errors import MOST_LINES, FileFault, OptionFault, TableFault
from ...quantity import plain_text
from ...tables.amount_columns import NAMES
from ...tables.loader import LoadedProblem, Stages, split_path, wanted_of
from ...tables.preview import IGNORED, Preview, preview_of
from ...tables.problem_builder import KINDS
from ...tables.setting_question import SETTINGS
from ...tables.sheet import MOST_FAULTS
from ...tables.titles import COLUMNS, START_OF_LINE
from ..steps import unforeseen
from ..workspace import Desk
from .import_options import SHEET
from .responses import Json
from .views import words_view

# How many places a page may propose, and how many answers to a question.
MOST_PLACES, MOST_CHOICES = 2_000, 50
ROLES = [
    *[(column, {"tail": "from", "head": "to"}.get(column, column)) for column in COLUMNS],
    ("", "kept as it is"),
    (IGNORED, "kept as a remark"),
]
PROBLEM = "a problem file"


@dataclass
class Reading:
    """What a file and the words about it have come to: the stages of its reading; the problem and
    its desk, or why there is none, such as that it was stopped."""

    words: argparse.Namespace
    stages: Stages = field(default_factory=Stages)
    subject: Optional[LoadedProblem] = None
    desk: Optional[Desk] = None
    fault: Optional[BaseException] = None
    is_stopped: bool = False

    @property
    def kind(self) -> str:
        """Return what the file is; empty if it cannot be read."""
        if self.stages.kind:
            return self.stages.kind.what.partition(" (")[0]
        return PROBLEM if self.subject else ""


def import_view(reading: Reading, told: Sequence[str]) -> Json:
    """Return what a page shows of a reading. `told` has a fault of the options, if there is one."""
    stages, fault = reading.stages, reading.fault
    shown = preview_of(stages, wanted_of(reading.words).reading)
    plan = stages.plan
    notes = reading.subject.notes if reading.subject else plan.notes if plan else ()
    return {
        "file": file_view(reading),
        "is_stopped": reading.is_stopped,
        "settings": settings_view(reading, shown),
        "contents": contents_view(stages),
        "preview": preview_view(shown),
        "columns": [
            {
                "at": it.place,
                "title": it.title,
                "option": it.option,
                "role": it.role,
                "sure": it.sure,
            }
            for it in shown.columns
        ],
        "roles": ROLES if stages.sheet else [],
        "told": [*notes],
        "question": None if told else question_view(fault),
        "places": [*islice(stages.table.places, MOST_PLACES)] if stages.table else [],
        "ends": ends_view(reading),
        "answer": None if told else answer_view(reading),
        **faults_view(fault, told, reading.words.path),
    }


def file_view(reading: Reading) -> Json:
    path = os.path.abspath(split_path(reading.words.path)[0])
    folder, name = os.path.split(path)
    size = os.path.getsize(path) if os.path.isfile(path) else 0
    return {"name": name, "folder": folder, "kind": reading.kind, "bytes": size}


def contents_view(stages: Stages) -> list[Json]:
    """Return the parts of the file, each with what it is read for."""
    if stages.file is None or stages.kind is None:
        return []
    parts = stages.kind.contents(stages.file, stages.sheets, stages.sheet)
    return [{"name": it.name, "count": it.count, "said": it.said} for it in parts]


def preview_view(shown: Preview) -> Json:
    header = shown.header
    above = [line for line in shown.lines if header and line < header]
    return {
        "rows": shown.rows,
        "lines": [*shown.lines],
        "header": header,
        "left_out": above,
    }


# An option that a page sets, its label, and its choices, if it is no text.
Setting = tuple[str, str, Sequence[tuple[str, str]]]


def settings_view(reading: Reading, shown: Preview) -> list[Json]:
    """Return the settings that a file of this kind reads."""
    stages = reading.stages
    if stages.kind is None:
        return []
    sign = stages.table.amounts.sign if stages.table else ""
    found = f"as found: a {NAMES[sign]}" if sign else "as found"
    path = split_path(reading.words.path)[0]
    sheets = [sheet.name for sheet in stages.sheets if sheet.path != path]
    settings: list[Setting] = []
    if len(sheets) > 1:
        chosen = f"as found: {stages.sheet.name}" if stages.sheet else "not said"
        settings.append((SHEET, "Sheet", [("", chosen), *[(name, name) for name in sheets]]))
    settings += [
        ("decimal", "Decimal sign", [("", found), (".", "a point"), (",", "a comma")]),
        (
            "missing",
            "Missing capacities",
            [("", "are a fault"), ("0", "are 0"), ("unlimited", "are without a limit")],
        ),
        ("both_ways", "Each row leads both ways", []),
        ("matrix", "Rows and titles are places (a matrix)", []),
        ("scale", "Multiply each number by", []),
    ]
    for option in stages.kind.settings:
        choices = SETTINGS[option].choices if len(SETTINGS[option].choices) > 1 else ()
        settings.append((option, LABELS[option], [("", "not said"), *choices] if choices else []))
    if reading.words.tolerance or any(it.title == START_OF_LINE for it in shown.columns):
        settings.append(("tolerance", LABELS["tolerance"], []))
    settings += _roster_settings(reading)
    if not sheets:
        settings.append(("encoding", "Encoding", []))
    return [{"option": it, "label": label, "choices": some} for it, label, some in settings]


def _roster_settings(reading: Reading) -> Iterator[Setting]:
    """Yield the settings of rosters that are asked for, or were said; and that of needs if faults
    name rows or columns of a matrix that may have them."""
    asked, told = getattr(reading.fault, "option", ""), str(reading.fault or "")
    for option in ROSTER_SETTINGS:
        is_said = bool(getattr(reading.words, option))
        names = re.findall(rf"--{option} '([^'\\]+)'", told) if not is_said else []
        if names:
            rows = [("", "not said"), *[(name, name) for name in dict.fromkeys(names)]]
            yield option, LABELS[option], rows
        elif option == asked or is_said:
            yield option, LABELS[option], []


# The settings of rosters, each of which is shown when it is asked for, or was said.
ROSTER_SETTINGS = ("needs", "shift", "daily")
LABELS = {
    "velocity": "Velocity of water (m/s)",
    "tanks": "Tanks",
    "tolerance": "Join ends of lines up to this far apart",
    "needs": "Row of needs",
    "shift": "Length of a shift",
    "daily": "Most shifts of a person in a day",
}


def question_view(fault: Optional[BaseException]) -> Optional[Json]:
    """Return the question that one option settles, or None."""
    if not isinstance(fault, TableFault) or not fault.option:
        return None
    return {
        "text": fault.reason.partition("; ")[0],
        "option": fault.option,
        "choices": [*fault.answers[:MOST_CHOICES]],
    }


def faults_view(fault: Optional[BaseException], told: Sequence[str], path: str) -> Json:
    """Return the faults: those of options, or those in cells."""
    if told or not isinstance(fault, TableFault):
        texts = told or ([_reason(fault)] if fault else [])
        return {"faults": [_fault_view(text) for text in texts], "more_faults": 0}
    if fault.option:
        return {"faults": [], "more_faults": 0}
    all_of_them = [fault, *fault.others]
    return {
        "faults": [_cell_fault_view(it, path) for it in all_of_them[:MOST_FAULTS]],
        "more_faults": fault.untold + max(0, len(all_of_them) - MOST_FAULTS),
    }


def _reason(fault: BaseException) -> str:
    return str(fault) if isinstance(fault, (FileFault, OptionFault)) else unforeseen(fault)


def _fault_view(text: str, line: int = 0, column: int = 0) -> Json:
    return {"text": text, "line": line, "column": column}


def _cell_fault_view(fault: TableFault, path: str) -> Json:
    """Return a fault with its cell. The text has the place only if it is in another file."""
    if split_path(fault.path)[0] != split_path(path)[0]:
        return _fault_view(fault.told())
    names = fault.row_names
    lines = [names.get(line) or str(line) for line in fault.more_lines[:MOST_LINES]]
    if len(fault.more_lines) > MOST_LINES:
        lines.append("..")
    word = "" if names else f"line{'s' * (len(lines) > 1)} "
    more = f" (also in {word}{', '.join(lines)})" if lines else ""
    column = f", column {fault.column_name}" if fault.column_name else ""
    name = f"{names[fault.line]}{column}: " if fault.line in names else ""
    return _fault_view(name + fault.reason + more, fault.line, fault.column if fault.line else 0)


def ends_view(reading: Reading) -> Json:
    """Return the sources and the sinks, and which of these two were assumed."""
    plan = reading.stages.plan
    ends: dict[str, Any] = {"source": [], "sink": [], "assumed": []}
    if plan is None:
        return ends
    named = wanted_of(reading.words).kinds_named
    for kind, end in KINDS.items():
        terms = plan.of_kind(kind)
        ends[end] = [term.place for term in terms[:MOST_PLACES]]
        if terms and kind not in named and not any(term.line for term in terms):
            ends["assumed"].append(end)
    return ends


def answer_view(reading: Reading) -> Optional[Json]:
    """Return the answer in the words of a board's headline, or None."""
    if reading.desk is None:
        return None
    network = reading.desk.network
    unit = network.measure.told_unit
    value = f"{plain_text(reading.desk.value)}{f' {unit}' if unit else ''}"
    said = f"{value} {words_view(reading.desk)['task']}"
    return {"said": said, "rows": len(network.pictured())}
