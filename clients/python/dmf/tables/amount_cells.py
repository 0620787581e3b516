"""What a cell of a column of numbers says: a number and its unit, nothing, or why it is neither."""

from __future__ import annotations

import re
from decimal import Decimal

from ..quantity import COMMA, POINT, readings
from .sheet import Exact
from .titles import folded

_WITH_UNIT = re.compile(r"(.*?[0-9.,])\s+([^\s\d.,'+-][^\d]*(?:[23\xb2\xb3][^\d]*)?)", re.DOTALL)
_DATE = re.compile(
    r"[0-9]{1,4}[./-](?:[0-9]{1,2}|[^\W\d]{3,9})[./-][0-9]{2,4}(?:[ T][0-9:.]+)?"
    r"|[0-9]{4}-[0-9]{2}-[0-9]{2}.*"
    r"|[0-9]{1,2}\.? [^\W\d]{3,9}\.?,? [0-9]{2,4}"
)
# A day without a year, as spreadsheets make one of 5.3 or 3-5.
_DAY = re.compile(
    r"[0-9]{1,2}[\s.-]+(?P<month>[^\W\d_]{3,10})\.?|(?P<first>[^\W\d_]{3,10})\.?[\s-]+[0-9]{1,2}"
)
_MONTHS = set(
    "jan january januar janner janvier janv enero ene feb february februar fevrier fev febrero mar "
    "march marz mrz mars marzo apr april avril avr abril abr may mai mayo jun june juni juin junio "
    "jul july juli juillet juil julio aug august aout agosto ago sep sept september septembre "
    "septiembre oct october okt oktober octobre octubre nov november novembre noviembre dec "
    "december dez dezember decembre dic diciembre".split()
)
_ENDLESS = re.compile(
    r"[+-]?(?:nan|inf(?:inity)?|\u221e|unlimited|unendlich|unbegrenzt)", re.IGNORECASE
)


def no_number(text: str) -> str:
    """Return why a text is not a number, and what would do."""
    if is_date(text):
        return "is a date, not a number"
    if _ENDLESS.fullmatch(text):
        return "is not a number; where there is no limit, write a number that is large enough"
    if text[:1] == "=" or text[:1] == "#" and text[1:2].isalpha():
        return "is a formula or its error, not a number"
    return "is not a number; write one as 47.3 or 47,3"


def is_date(text: str) -> bool:
    """Return True if a text is a date, or a day of a month."""
    day = _DAY.fullmatch(text)
    return bool(_DATE.fullmatch(text) or day and folded(day["month"] or day["first"]) in _MONTHS)


# What stands in a cell that has no number.
MISSING = set(
    "|-|--|\u2013|\u2014|?|n/a|na|#n/a|nan|null|none|k.a.|k. a.|k.\u00a0a.|nc|n.c.|s/d|sd|tbd|.|..|"
    "keine angabe|unbekannt|unknown|not known|missing|fehlt|inconnu".split("|")
)


def is_missing(cell: str) -> bool:
    """Return True if a cell says that there is no number, or has nothing."""
    return not isinstance(cell, Exact) and " ".join(cell.split()).casefold() in MISSING


# What stands in the cell of a capacity that has no limit.
LIMITLESS = {
    "unlimited",
    "unbegrenzt",
    "unendlich",
    "illimit\xe9",
    "illimite",
    "ilimitado",
    "\u221e",
}


def is_limitless(cell: str) -> bool:
    """Return True if a cell says that there is no limit."""
    return not isinstance(cell, Exact) and cell.strip().casefold() in LIMITLESS


def read_cell(cell: str) -> tuple[dict[str, Decimal], str]:
    """Return the readings of a cell by the decimal sign, as `readings` gives them, and its unit."""
    if isinstance(cell, Exact):
        number = Decimal(cell)
        return {POINT: number, COMMA: number}, ""
    text = cell.strip()
    found = readings(text)
    if not found and (parts := _WITH_UNIT.fullmatch(text)) and not is_date(text):
        return readings(parts[1]), " ".join(parts[2].split())
    return found, ""
