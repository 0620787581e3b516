"""What a table is read for, and where its columns are."""

from __future__ import annotations

from collections.abc import Collection, Mapping, Sequence
from dataclasses import dataclass, field

from ..text.spelling import quoted_name
from .titles import (
    CAPACITY,
    DEMAND,
    DIRECTION,
    HEAD,
    LIMIT,
    NAME,
    STATUS,
    SUPPLY,
    TAIL,
    USUAL,
    Title,
    says_capacity,
    title_of,
)

# Titles of a column that do not say in what its cells are counted.
PLAIN_TITLES = {"", "limite", *USUAL[CAPACITY], *USUAL[NAME], *USUAL[LIMIT], "title"}
# Those of names that say what an arc is all the same.
PLAIN_TITLES -= set("pipe rohr leitung tuyau tubo tuberia road strasse route calle".split())
# English words for an arc, which are written in lower case within a sentence.
ENGLISH_ARCS = set(
    "arc cable canal channel conduit duct edge lane line link main pipe pipeline road route "
    "section segment shift street".split()
)
LONGEST_UNIT = 40
# How many titles a message lists.
MOST_LISTED = 20


@dataclass(frozen=True)
class Form:
    """The columns for which a table is read: those of places, those of amounts, of which at least
    one must exist, and one of names. Without titles they stand in this order. `hint` is added to
    messages about a first row that was refused and not read as titles."""

    places: tuple[str, ...]
    amounts: tuple[str, ...]
    label: str = ""
    hint: str = ""

    @property
    def order(self) -> dict[str, int]:
        """Return the place of each column if titles do not say it."""
        columns = (*self.places, self.amounts[0], *filter(None, [self.label]))
        return {column: place for place, column in enumerate(columns)}


ARCS = Form(
    (TAIL, HEAD),
    (CAPACITY,),
    NAME,
    " (if these are titles, name the columns: --tail, --head and --capacity)",
)
# What a table of arcs may also say: in rows of places, which have no head and no capacity; and of
# its rows.
PLACE_COLUMNS = SUPPLY, DEMAND, LIMIT
STATES = STATUS, DIRECTION
# Why a column was taken for what it is: it was named by an option or by its title, it is the only
# one that is possible, or it stands where such a column usually stands.
CHOSEN, NAMED, ONLY, IN_ORDER = "chosen", "named", "only", ""
# How the line that tells what was taken calls a column.
_CALLED = {TAIL: "from", HEAD: "to"}


@dataclass(frozen=True)
class Layout:
    """The position of each column of a table, from 0 on; the titles, and their line, if there is a
    row of them; and the first line that may have a row. `is_by_numbers` says that the amounts are
    those of the only column with numbers, and that a column had no cell in the examined rows.
    `sure` says why each column was taken for what it is."""

    at: Mapping[str, int]
    titles: tuple[Title, ...] = ()
    line: int = 0
    begin: int = 0
    is_by_numbers: bool = False
    notes: tuple[str, ...] = ()
    untitled: tuple[int, ...] = ()
    sure: Mapping[str, str] = field(default_factory=dict)

    def title(self, column: str) -> Title:
        """Return the title of a column; an empty one if it has none."""
        place = self.at.get(column, len(self.titles))
        return self.titles[place] if place < len(self.titles) else Title("", "", "")

    def others(self) -> list[int]:
        """Return the columns with titles that are read for nothing."""
        return [
            place
            for place, title in enumerate(self.titles)
            if title.text and place not in self.at.values()
        ]

    def called(self, place: int) -> str:
        """Return a column as messages name it."""
        return called(self.titles, place)

    def told(
        self, unit: str = "", kept: Collection[int] = (), dropped: Collection[str] = ()
    ) -> str:
        """Return what was taken for what, in one line. `unit` is that of the amounts; `kept` are
        columns without titles that are kept; and `dropped` are columns that were found and have
        nothing."""
        at = {column: place for column, place in self.at.items() if column not in dropped}
        parts = [
            f"{_CALLED.get(column, column)} {self.called(place)}" for column, place in at.items()
        ]
        if unit and CAPACITY in at:
            parts[[*at].index(CAPACITY)] += f" ({unit})"
        others = [
            place
            for place, title in enumerate(self.titles)
            if title.text and place not in at.values()
        ]
        names = [self.called(place) for place in sorted({*others, *self.untitled, *kept})]
        rest = f" and {len(names) - MOST_LISTED} more" if len(names) > MOST_LISTED else ""
        told = ", ".join(parts) + (
            f"; kept: {', '.join(names[:MOST_LISTED])}{rest}" if names else ""
        )
        return told if self.titles else f"there are no titles: {told}"


def name_of_column(titles: Sequence[Title], place: int) -> str:
    """Return what options call a column: its title, or its number if it has none of its own."""
    text = titles[place].text if place < len(titles) else ""
    is_own = text and sum(title.text == text for title in titles) == 1
    return text if is_own else f"column {place + 1}"


def called(titles: Sequence[Title], place: int) -> str:
    """Return a column as messages name it."""
    name = name_of_column(titles, place)
    is_title = place < len(titles) and titles[place].text == name
    return quoted_name(name) if is_title else name


def unit_of(title: Title) -> str:
    """Return the unit of the cells below a title: what it has in brackets, or the title itself if
    it is not a usual one."""
    if title.unit:
        return title.unit if title.unit.isprintable() else ""
    return "" if says_capacity(title) else spoken(title.text)


def spoken(title: str) -> str:
    """Return a title as it stands within a sentence, if it says what its cells are."""
    is_plain = title_of(title).word in PLAIN_TITLES or not any(map(str.isalpha, title))
    if is_plain or len(title) > LONGEST_UNIT or not title.isprintable():
        return ""
    return title.lower() if title.lower() in ENGLISH_ARCS else title


def is_heading(cell: str) -> bool:
    """Return True if the first row has titles, judged by its cell of an amount: its first letter or
    digit is a letter."""
    first = next((letter for letter in cell if letter.isalnum()), "0")
    return not first.isnumeric()
