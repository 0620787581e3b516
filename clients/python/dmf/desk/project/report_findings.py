"""What a report says, as it was found."""

from __future__ import annotations

from dataclasses import dataclass
from typing import NamedTuple

from ...quantity import Quantity
from ..subject_words import Words
from .comparison import ArcDifference
from .report_picture import ReportPicture


class Demand(NamedTuple):
    """What a place takes at most, and how much of that arrives."""

    place: str
    wanted: Quantity
    arrives: Quantity


@dataclass(frozen=True)
class Section:
    """A scenario in a report; `is_present` says whether it is the one that is shown now. `picture`
    is empty if there is none, for the reason `no_picture`; `limit_names` are
    short, and `check` is what `dmf check` wrote about the flow."""

    name: str
    is_present: bool
    begun_from: str
    note: str
    value: Quantity
    steps: tuple[tuple[str, Quantity], ...]
    left_out: tuple[str, ...]
    limit: tuple[tuple[str, Quantity], ...]
    limit_names: tuple[str, ...]
    side: tuple[str, ...]
    demands: tuple[Demand, ...]
    differences: tuple[ArcDifference, ...]
    picture: ReportPicture
    no_picture: str
    check: str


class Worst(NamedTuple):
    """The arcs, the places or the pairs whose loss costs most, by their names, with what each
    loses, the greatest loss first; and how many others cost something, which is 0 for pairs, since
    they are not counted. The same is told of arcs beside which a second one gains most."""

    losses: tuple[tuple[str, Quantity], ...]
    more: int


class WorstLosses(NamedTuple):
    """What is worst to lose of all arcs of the table, and of all places without the only source and
    the only sink; and how many arcs and places these are. `worst_pairs` are the pairs of arcs that
    cost most to lose together, or None if there are too many arcs."""

    worst_arcs: Worst
    worst_places: Worst
    worst_pairs: Worst | None
    arcs: int
    places: int


@dataclass(frozen=True)
class Tried:
    """What arcs and places mean for the value of a scenario. `losses` is None if the network is too
    large to ask for them. `gains` are what second ones bring beside arcs of the limit; of its
    `limit` arcs, the first `tried` were tried."""

    scenario: str
    value: Quantity
    losses: WorstLosses | None
    gains: Worst
    limit: int
    tried: int


@dataclass(frozen=True)
class Findings:
    """Everything that a report says about the network and the scenarios of a desk. The first
    section is the network of the table. `sources` and `sinks` count the places that flow comes from
    and goes to, and `tasks` say what the value is, the longest text first."""

    title: str
    notes: str
    unit: str
    noun: str
    source: str
    sink: str
    sources: int
    sinks: int
    tasks: tuple[str, ...]
    words: Words
    arcs: int
    places: int
    assumed: tuple[str, ...]
    sections: tuple[Section, ...]
    tried: Tried

    @property
    def present(self) -> Section:
        """Return the section of the present scenario."""
        return next(it for it in self.sections if it.is_present)
