"""The words of rosters, in English, German, French and Spanish: what says that somebody can take a
shift, which row has the needs, which columns have limits and wards, and which day a shift is on."""

from __future__ import annotations

import re
from collections.abc import Iterable
from typing import Optional

from .sheet import Exact
from .titles import Title, folded


def _words(text: str) -> frozenset[str]:
    return frozenset(text.split())


# What the cells of a person say.
_CAN = _words("x yes y ja j oui o si sí true wahr vrai 1 ✓ ✔ ✗ ×")
_CANNOT = _words("- – — no n nein non false falsch faux 0 .")
# The first cell of a row of needs has one of the first words, and none but these.
NEEDS = _words(
    "need needs needed required requirement requirements demand bedarf benotigt benotigte "
    "erforderlich erforderliche personalbedarf sollbesetzung besoin besoins requis requise "
    "requises necessaire necessaires necesario necesarios necesaria necesarias necesidad "
    "necesidades requerido requeridos"
)
OF_PEOPLE = _words(
    "people persons staff nurses workers headcount personen personal leute mitarbeiter "
    "pflegekrafte personnes personnel effectif infirmieres personas enfermeras"
)
_BESIDE_NEEDS = OF_PEOPLE | _words(
    "of the de la du an pro per par por shift schicht poste turno total"
)
HOURS = _words("hours hour hrs h stunden std heures heure horas hora")
_SHIFTS = _words("shifts schichten dienste postes gardes turnos guardias")
_BESIDE_LIMITS = _words(
    "max maximum maximal maximale maximo maximos maxima maximas most contract contracted weekly "
    "per a week weekend month day available pro woche monat wochenende vertrag par semaine mois "
    "contrat por semana mes contrato limit limite grenze soll can may work"
)
_WARDS = _words(
    "ward wards station stationen abteilung unit department service unite servicio unidad "
    "planta sala bereich"
)
_DAYS = _words(
    "mo mon monday montag lundi lun lunes tu tue tues tuesday di dienstag mardi mar martes we "
    "wed wednesday mi mittwoch mercredi mer mie miercoles th thu thur thurs thursday do "
    "donnerstag jeudi jeu jue jueves fr fri friday freitag vendredi ven vie viernes sa sat "
    "saturday samstag sonnabend samedi sam sab sabado su sun sunday so sonntag dimanche dim dom "
    "domingo"
)
_DATE = re.compile(r"\d{4}-\d{1,2}-\d{1,2}|\d{1,2}[./]\d{1,2}(?:[./](?:\d{2,4})?)?")


def is_mark(cell: str) -> Optional[bool]:
    """Return True if a cell says that somebody can take a shift, False if it says that they cannot,
    and None if it says neither."""
    text = cell.strip().casefold()
    return True if text in _CAN else False if not text or text in _CANNOT else None


def is_cross(cell: str) -> bool:
    """Return True if a cell is a mark that is not also a number."""
    return bool(is_mark(cell)) and not isinstance(cell, Exact) and cell.strip() != "1"


def names_needs(cell: str) -> bool:
    """Return True if a cell names the row that says how many people shifts need."""
    words = set(folded(cell).split())
    return bool(words & NEEDS) and NEEDS | _BESIDE_NEEDS >= words


def is_limit(title: Title) -> bool:
    """Return True if a title is that of what people may work."""
    words = set(title.words) | set(folded(title.unit).split())
    counts = HOURS | _SHIFTS
    return bool(words & counts) and counts | _BESIDE_LIMITS >= words


# The first words of the sentence that says how a roster was read.
SAID_OF_ROSTERS = "a roster: "


def is_of_roster(notes: Iterable[str]) -> bool:
    """Return True if the notes on how a table was read say that it is a roster."""
    return any(note.startswith(SAID_OF_ROSTERS) for note in notes)


def counts_shifts(title: Title) -> bool:
    """Return True if the cells below a title count shifts."""
    return not _SHIFTS.isdisjoint(title.words)


def unit_of_limits(title: Title) -> str:
    """Return what the cells below a title count: the word for it, or the title."""
    if title.unit:
        return title.unit
    known = (word for word in title.text.split() if folded(word) in HOURS | _SHIFTS)
    return next(known, title.text)


def is_ward(title: Title) -> bool:
    """Return True if a title is that of wards."""
    return bool(title.words) and _WARDS >= set(title.words)


def day_in(title: str) -> str:
    """Return the day that a title names; empty if it names none, or several."""
    days = [word for word in title.split() if _is_day(word)]
    return days[0] if len(days) == 1 else ""


def _is_day(word: str) -> bool:
    return bool(_DATE.fullmatch(word.strip(",;:"))) or folded(word) in _DAYS
