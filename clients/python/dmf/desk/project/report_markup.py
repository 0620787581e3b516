"""What the parts of a report are made of: texts of the planner, which are never markup, amounts,
tables and sentences."""

from __future__ import annotations

from collections.abc import Iterable, Iterator
from html import escape

from ...quantity import Quantity, plain_text
from ...text.lexical import display
from ...text.table_comments import listed
from .report_findings import Findings

# The most rows of a table, and the most names in a sentence.
MOST_ROWS, MOST_NAMES = 10, 5


def safe_text(text: str) -> str:
    """Return a text of the planner in the page: never markup."""
    return escape(display(text))


def safe_lines(text: str) -> str:
    """Return a text of the planner of several lines."""
    return "\n".join(map(safe_text, text.splitlines()))


def told_amount(amount: Quantity, unit: str) -> str:
    return safe_text(f"{plain_text(amount)} {unit}".rstrip())


def table_lines(
    titles: Iterable[tuple[str, bool]], rows: list[list[str]], more: int = 0
) -> Iterator[str]:
    """Yield a table of cells that are markup already, and how many `more` rows there would be.
    Columns of numbers stand to the right."""
    heads = list(titles)

    def cells(tag: str, row: Iterable[str]) -> str:
        marks = (' class="number"' if is_number else "" for _, is_number in heads)
        return "".join(f"<{tag}{mark}>{cell}</{tag}>" for mark, cell in zip(marks, row))

    yield f"<table><thead><tr>{cells('th', (title for title, _ in heads))}</tr></thead><tbody>"
    yield from (f"<tr>{cells('td', row)}</tr>" for row in rows[:MOST_ROWS])
    yield "</tbody></table>"
    more += max(0, len(rows) - MOST_ROWS)
    if more:
        yield f'<p class="faint">and {more} more</p>'


def counted(count: int, noun: str) -> str:
    return f"{count} {noun}{'s' * (count != 1)}"


def filled(sentence: str, found: Findings, **more: object) -> str:
    """Return a sentence of the report with what was found."""
    people = f"{found.sources} {'person' if found.sources == 1 else 'people'}"
    return sentence.format(
        source=safe_text(found.source),
        sink=safe_text(found.sink),
        arcs=counted(found.arcs, safe_text(found.noun)),
        places=found.places,
        people=people,
        shifts=counted(found.sinks, "shift"),
        **more,
    )


def some_of(names: Iterable[str]) -> str:
    """Return names of the planner in a sentence: the first ones, and how many more there are."""
    return listed([*map(safe_text, names)], MOST_NAMES)
