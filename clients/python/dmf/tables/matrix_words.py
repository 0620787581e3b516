"""The words of matrices, in English, German, French and Spanish: which rows and columns say what
the other places give, take or let through, and which may say that, or be places themselves."""

from __future__ import annotations

from typing import NamedTuple

from .roster_words import HOURS, NEEDS, OF_PEOPLE
from .titles import (
    DEMAND,
    LIMIT,
    OTHERS,
    SUPPLY,
    USUAL,
    Title,
    is_least,
    is_share,
    rivals_capacity,
    says_capacity,
    title_of,
)


def _words(text: str) -> frozenset[str]:
    return frozenset(text.split())


# Words that also name places, or the greatest cell of a column.
_UNSURE = {
    SUPPLY: _words(
        "source sources quelle quellen fuente stock inventory bestand existencias inflow zulauf "
        "entree entrada production produktion produccion available availability verfugbar "
        "disponible"
    ),
    DEMAND: OF_PEOPLE
    | _words(
        "sink sinks senke senken sumidero order orders outflow abfluss sortie salida load loads"
    ),
    LIMIT: _words("most max maximum maximal maximo maxima hochstens"),
}
_SURE = {
    SUPPLY: frozenset(USUAL[SUPPLY]) | _words("supplies offres ofertas") - _UNSURE[SUPPLY],
    DEMAND: frozenset(USUAL[DEMAND])
    | NEEDS
    | _words("demands demandes demandas consumption verbrauch consommation"),
    LIMIT: frozenset(USUAL[LIMIT]) | _words("capacities"),
}
_SURE = {kind: words - _UNSURE[kind] for kind, words in _SURE.items()}
# Words that may stand beside these.
_PERIODS = _words(
    "day daily week weekly month monthly hourly hour tag woche monat stunde jour semaine mois "
    "heure dia semana mes hora"
)
_BESIDE = _PERIODS | _words(
    "total totale gesamt of the de la du des der per pro par por place places node ort knoten lieu "
    "nodo shift schicht poste turno"
)
# What is said of rows and columns, and not by places.
_STATISTICS = HOURS | _words(
    "min minimum minimal minimo mean average avg mittel mittelwert schnitt durchschnitt moyenne "
    "promedio media median count anzahl share anteil std stdev sd dev deviation variance "
    "abweichung standardabweichung varianz ecart desviacion anmerkung anmerkungen hinweis "
    "hinweise notizen commentaire commentaires remarques observation observations observaciones "
    "comentario comentarios nota notas target actual soll ist difference differenz diferencia "
    "balance saldo bilanz check kontrolle rest remaining remainder reserve spare priority "
    "prioritat priorite prioridad rank rang rango"
)
# Signs of a mean.
_MEANS = "\xd8\xf8\u2205"


_KNOWN = frozenset().union(*_SURE.values(), *_UNSURE.values(), _BESIDE, _STATISTICS, OTHERS)


# Titles of numbers of the rows.
_COUNTERS = _words("no nr number numero nummer id index idx row zeile pos position lfd lfdnr")


class Meaning(NamedTuple):
    """What a row or column says by its name: of this kind, and whether that is certain. A kind that
    is empty is none of supplies, demands and limits."""

    kind: str
    is_sure: bool


def meaning_of(name: str) -> Meaning | None:
    """Return what a row or column says by its name, or None if it is a place."""
    title = title_of(name)
    words = set(title.words)
    for kind in _SURE:
        if _is_sure(title, kind):
            return Meaning(kind, True)
    is_known = all(word in _KNOWN or word.isdecimal() for word in words)
    kinds = [
        kind for kind, sure in _SURE.items() if words & sure or is_known and words & _UNSURE[kind]
    ]
    if kinds:
        return Meaning(kinds[0] if len(kinds) == 1 else "", False)
    # Places of a kind are numbered, such as `Target 1`; a longer number may be a year.
    is_numbered = any(word.isdecimal() and len(word) < 4 for word in words)
    is_said = any(len(it) > 1 and it in _STATISTICS | OTHERS for it in words)
    is_period = bool(words & _PERIODS) and _BESIDE >= words
    is_mean = title.text[:1] in _MEANS and not title.text[1:2].isalpha()
    is_other = is_known and is_said and not is_numbered
    is_no_place = is_other or is_period or is_mean or counts_rows(name)
    return Meaning("", False) if is_no_place or is_share(title) or is_least(title) else None


def names_people(name: str) -> bool:
    """Return True if a row or a column may be a number of people, there or needed."""
    return not OF_PEOPLE.isdisjoint(title_of(name).words)


def counts_rows(cell: str) -> bool:
    """Return True if a cell is the title of the numbers of the rows."""
    words = title_of(cell).words
    return bool(words) and _COUNTERS.issuperset(words)


def _is_sure(title: Title, kind: str) -> bool:
    """Return True if a title says for certain that its cells are of this kind."""
    words, sure = set(title.words), _SURE[kind]
    if is_share(title) or is_least(title) or rivals_capacity(title):
        return False
    if kind == LIMIT and says_capacity(title):
        return True
    beside = _BESIDE | OF_PEOPLE if words & NEEDS else _BESIDE
    return title.word in sure or bool(words & sure) and sure | beside >= words
