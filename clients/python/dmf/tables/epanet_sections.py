"""The sections of a file of EPANET, and the words of their lines."""

from __future__ import annotations

import re
from typing import NamedTuple, Optional

from ..text.spelling import quoted_name
from .sheet import Faults
from .table_file import TableFile

# The names of sections, by how they begin, as EPANET compares them; of these the ones that change
# states in time; and those of the other sections, which are read for nothing.
NAMES = {
    name[:4]: f"[{name}]"
    for name in (
        "JUNCTIONS RESERVOIRS TANKS PIPES PUMPS VALVES DEMANDS STATUS COORDINATES OPTIONS CONTROLS"
        " RULES"
    ).split()
}
TIMED = {"CONT": "[CONTROLS]", "RULE": "[RULES]"}
PASSED = (
    "TITL EMIT CURV PATT ENER QUAL SOUR REAC MIXI TIME REPO VERT LABE BACK TAGS END ROUG LEAK"
).split()
_TOKEN = re.compile(r'"([^"]*)"|([^\s;"]+)')


class Line(NamedTuple):
    """The words of a line of a section."""

    number: int
    words: list[str]


def is_one(file: TableFile) -> bool:
    """Return True if a file begins with a section of EPANET, or its name ends in .inp."""
    return file.ending == ".inp" or bool(_START.match(file.data))


_START = re.compile(
    rb"(?:\xef\xbb\xbf)?(?:\s|;[^\n]*\n)*\[(?:TITLE|JUNCTIONS|RESERVOIRS|TANKS|PIPES|OPTIONS)\]",
    re.IGNORECASE,
)


def sections_of(text: str, faults: Faults) -> dict[str, list[Line]]:
    """Return the lines with words of each section, by how its name begins. Raises a
    `TableFault`."""
    sections: dict[str, list[Line]] = {}
    current: Optional[list[Line]] = None
    for number, line in enumerate(text.split("\n"), 1):
        words = _words(line, number, faults)
        if not words:
            continue
        if words[0].startswith("["):
            name = words[0][1:5].upper().rstrip("]")
            if name not in (*NAMES, *PASSED):
                faults.add(f"EPANET has no section {quoted_name(words[0])}", number)
            current = sections.setdefault(name, [])
            if name == "END":
                break
        elif current is None:
            faults.add(f"{quoted_name(words[0])} stands before the first section", number)
        else:
            current.append(Line(number, words))
    faults.judge()
    return sections


def _words(line: str, number: int, faults: Faults) -> list[str]:
    """Return the words of a line before its comment; one in quotes may have blanks."""
    words, at = [], 0
    while at < len(line) and line[at] != ";":
        if found := _TOKEN.match(line, at):
            words.append(found[2] if found[1] is None else found[1])
            at = found.end()
        elif line[at] == '"':
            faults.add("a quote is not closed", number)
            break
        else:
            at += 1
    return words
