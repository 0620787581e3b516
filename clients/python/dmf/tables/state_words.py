"""The words of columns that say whether rows are open, and which way they lead, in English, German,
French and Spanish."""

from __future__ import annotations

from collections.abc import Sequence

from ..text.spelling import cleaned
from .titles import CLOSED, DIRECTION, FLAGS, ONE_WAY, OPEN, STATUS, TWO_WAY, Title, folded

# What a row is: beside open or closed a check valve, which is open and lets nothing back; and which
# way it leads.
VALVE = "check valve"
FORWARD, BACKWARD, BOTH = "forward", "backward", "both ways"
_WORDS = {
    OPEN: (
        "open|opened|offen|auf|geoffnet|ouvert|ouverte|ouverts|ouvertes|abierto|abierta|on|ein|"
        "an|active|aktiv|actif|activo|activa|enabled|in"
        " use|in service|in betrieb|en service|en servicio|operational|operating"
    ),
    CLOSED: (
        "closed|close|geschlossen|zu|gesperrt|ferme|fermee|fermes|cerrado|cerrada|off|aus|"
        "inactive|inaktiv|inactif|inactivo|inactiva|disabled|abandoned|stillgelegt|ausser"
        " betrieb|out of service|hors service|fuera de"
        " servicio|abandonne|abandonnee|abandonado|abandonada|removed|decommissioned|not in use|not"
        " in service|nicht in betrieb"
    ),
    VALVE: (
        "cv|check valve|ruckschlagklappe|ruckschlagventil|clapet|clapet anti retour|valvula de"
        " retencion|valvula antirretorno"
    ),
    FORWARD: (
        "forward|one way|oneway|one|single|einfach|einweg|einbahn|hin|vorwarts|sens"
        " unique|unique|simple|unico|un sentido|sentido unico|direct|directo|direkt|f|ft|from to|in"
        " direction|normal"
    ),
    BACKWARD: (
        "backward|backwards|reverse|reversed|against|zuruck|ruckwarts|gegen|umgekehrt|inverse|"
        "inverso|sens"
        " inverse|contrario|sentido contrario|to from|tf|contraire"
    ),
    BOTH: (
        "both|both ways|both directions|two way|twoway|two|bidirectional|bidirektional|beide|beide"
        " richtungen|beidseitig|zweiweg|hin und zuruck|hin und her|double|double sens|deux sens|les"
        " deux|les deux sens|bidirectionnel|ambos|ambos sentidos|doble|doble"
        " sentido|bidireccional|either"
    ),
}
_MEANT = {word: meaning for meaning, words in _WORDS.items() for word in words.split("|")}
_COMMON = set("double contrario hin und her single".split())
_ARROWS = {
    "->": FORWARD,
    "\u2192": FORWARD,
    ">": FORWARD,
    "<-": BACKWARD,
    "\u2190": BACKWARD,
    "<": BACKWARD,
    "-1": BACKWARD,
}
_ARROWS |= dict.fromkeys(["<->", "\u2194", "<>", "\u21c4"], BOTH)
_YES = set("yes y ja j oui o si s true wahr vrai verdadero 1 x".split()) | {"\u2713"}
_NO = set("no n nein non false falsch faux falso 0".split())
# By what a title asks: what yes and no mean.
ANSWERS = {
    OPEN: (OPEN, CLOSED),
    CLOSED: (CLOSED, OPEN),
    ONE_WAY: (FORWARD, BOTH),
    TWO_WAY: (BOTH, FORWARD),
}
# By the column, what its cells may say.
MEANINGS = {STATUS: {OPEN, CLOSED, VALVE}, DIRECTION: {FORWARD, BACKWARD, BOTH}}


def meaning(cell: str, role: str, title: Title) -> str:
    """Return what a cell says; empty if that is not known."""
    text = cleaned(cell)
    word = folded(text)
    if answers := ANSWERS.get(FLAGS.get(title.word, "")):
        if text in _YES or word in _YES:
            return answers[0]
        if word in _NO and text != "-1":
            return answers[1]
    found = _ARROWS.get(text, _MEANT.get(word, ""))
    return found if found in MEANINGS[role] else ""


def state_of(cells: Sequence[str]) -> str:
    """Return what a column says whose title does not say it, if all of its cells are such words,
    and one of them changes what a row carries."""
    untitled = Title("", "", "")
    for role, usual in (STATUS, OPEN), (DIRECTION, FORWARD):
        said = {cell: meaning(cell, role, untitled) for cell in set(cells)}
        changes = [cell for cell, it in said.items() if it != usual and _is_plain(folded(cell))]
        if changes and "" not in said.values():
            return role
    return ""


def _is_plain(word: str) -> bool:
    """Return True if a word is hardly one of something else."""
    return len(word) > 3 and word not in _COMMON
