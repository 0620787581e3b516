"""The part of a report on what is worst to lose and best to have twice, as markup."""

from __future__ import annotations

from collections.abc import Callable, Iterator
from typing import NamedTuple

from ...quantity import EXACT, Quantity, plain_text
from .report_findings import Findings, Worst
from .report_markup import counted, filled, safe_text, table_lines


class _Column(NamedTuple):
    """A table of what is lost or gained: its titles, its rows, how many more rows there would be,
    how the value changes by a row, and the sentence if there are none."""

    title: str
    word: str
    rows: Worst
    sign: Callable[[Quantity, Quantity], Quantity]
    none: str


def _columns(found: Findings) -> Iterator[_Column]:
    """Yield the tables of what is worst to lose and best to have twice."""
    tried = found.tried
    if tried.losses:
        arcs, places, pairs, *_ = tried.losses
        none = "Closed alone, none costs anything."
        yield _Column("closed", "loses", arcs, EXACT.subtract, none)
        if pairs:
            none = "Closed together, no two cost anything."
            yield _Column("closed together", "lose", pairs, EXACT.subtract, none)
        none = "Shut alone, no place costs anything."
        yield _Column(found.words.shut, "loses", places, EXACT.subtract, none)
    none = "A second one beside any of them brings nothing."
    yield _Column("with a second one beside it", "gains", tried.gains, EXACT.add, none)


def _reckoned(found: Findings) -> Iterator[str]:
    """Yield how the values of the tables were reckoned, and of what."""
    tried, words = found.tried, found.words
    losses, noun = tried.losses, safe_text(words.arc or found.noun)
    if losses:
        yield (
            f"{filled(words.worth, found, arc=noun)}; it was found for all "
            f"{counted(losses.arcs, noun)} and {losses.places} {words.places}."
        )
        if 1 in (found.sources, found.sinks):
            yield "The only source and the only sink are not among the places."
        yield (
            f"Of all pairs of open {noun}s, the table lists those that cost most to lose together."
            if losses.worst_pairs
            else f"There are too many {noun}s here to find the two that cost most to lose "
            "together; <code>worst pairs</code> in <code>dmf plan</code> lists them."
        )
    else:
        yield f"There are too many {noun}s here to find what the loss of each would cost."
    all_or_some = (
        "each part"
        if tried.tried == tried.limit
        else (f"the first {tried.tried} of the {tried.limit} parts")
    )
    yield (
        f"A second one was tried beside {all_or_some} of the bottleneck; beside anything else it "
        "brings nothing."
    )


def trial_lines(found: Findings) -> Iterator[str]:
    tried = found.tried
    yield f"<h2>Worst to lose, best to have twice: {safe_text(tried.scenario)}</h2>"
    yield f'<p class="faint">{" ".join(_reckoned(found))}</p>'
    yield '<div class="columns">'
    for title, word, (rows, more), sign, none in _columns(found):
        if not rows:
            yield f"<p>{none}</p>"
            continue
        cells = [
            [safe_text(name), plain_text(by), plain_text(sign(tried.value, by))]
            for name, by in rows
        ]
        titles = [(title, False), (word, True), ("then", True)]
        yield from ("<div>", *table_lines(titles, cells, more), "</div>")
    yield "</div>"
