"""The words of dmf-plan, a page and a report: those of a network, in which something is sent from
place to place, and those of a roster, in which people take shifts."""

from __future__ import annotations

from collections.abc import Iterable, Mapping, Sequence
from typing import NamedTuple

from ..tables.roster_words import is_of_roster
from ..text.table_comments import DEMAND, DOES, LIMIT, MOST_ENDS, SUPPLY, listed


class PageWords(NamedTuple):
    """The sentences and titles that only a page has. `task` says what the value is, and
    `brief_task` does so without names; `picture` says what the picture shows of it, `choose` what
    can be selected, and `without` when a place counts as lost; `short` is the title of what lacks
    something, and `met` says that nothing does; `source` and `sink` say what a place is, and
    `all_given`, `all_taken` and `all_through` what its limit in the bottleneck means; `most` is the
    title of what parts of the bottleneck carry, `flow`, `idle` and `amount` are of a pipe that is
    selected, and `legend` explains its numbers; `enters` and `leaves` are of a place, `rest` of
    what its list leaves out, and `shut`, `again`, `shutting`, `is_shut`, `is_open` and `through` of
    shutting it and of its end; `added` is asked of a new pipe, and `each` of all that are chosen,
    of which `flowing` says what they do; `flows` and `fits` are titles of the table, and `forms`
    examples of its filter; `whole` and `line` are the words for all and for one line in the
    picture; `compared`, `more_flows` and `less_flows` are of two scenarios."""

    task: str
    brief_task: str
    picture: str
    choose: str
    short: str
    met: str
    source: str
    sink: str
    all_given: str
    all_taken: str
    all_through: str
    place: str
    without: str
    twice: str
    most: str
    flow: str
    idle: str
    amount: str
    legend: str
    enters: str
    leaves: str
    rest: str
    shut: str
    again: str
    shutting: str
    is_shut: str
    is_open: str
    through: str
    added: str
    each: str
    flowing: str
    flows: str
    fits: str
    forms: str
    whole: str
    line: str
    compared: str
    more_flows: str
    less_flows: str

    def tasks(self, sources: Sequence[str], sinks: Sequence[str]) -> list[str]:
        """Return the texts that say what the value is, the longest first: with the names of these
        sources and sinks, with fewer of them, with their numbers, and without them."""

        def counted(names: Sequence[str]) -> str:
            return names[0] if len(names) == 1 else f"{len(names):,} {self.place}s"

        told = [
            self.task.format(source=listed(sources, most), sink=listed(sinks, most))
            for most in (MOST_ENDS, 2, 1)
        ]
        fewer = self.task.format(source=counted(sources), sink=counted(sinks))
        return [*dict.fromkeys([*told, fewer, self.brief_task])]


class Words(NamedTuple):
    """The sentences and titles in which networks and rosters differ. What stands in braces is
    filled in. `crosses` and `crosses_one` are about the bottleneck, of several parts and of one,
    `severed` is about a network without one. `worth` says how losses were reckoned, of a pipe and
    of a place that is lost; `arc` is the word for a pipe, if the table does not have it, and `noun`
    that of dmf-plan and of steps; `does` says what a place gives, takes or lets through; `not_most`
    that the flow is not greatest, and `none_yet` that there is none; `side` is the title of the
    places before the bottleneck; `shutting`, `shut_step` and `open_step` are of shutting a place;
    `caption` and `difference_caption` explain a picture that is saved, and `differ_most` says which
    pipes that of a comparison has, if not all.
    """

    page: PageWords
    size: str
    crosses: str
    crosses_one: str
    severed: str
    carries: str
    demands: str
    demand: str
    demand_titles: tuple[str, str, str]
    worth: str
    shut: str
    places: str
    shades: dict[str, str]
    noun: str
    does: Mapping[str, str]
    not_most: str
    none_yet: str
    side: str
    shutting: str
    shut_step: str
    open_step: str
    caption: str
    difference_caption: str
    differ_most: str
    arc: str = ""

    @property
    def limit_not_known(self) -> str:
        """Return why the limit is not known before a `solve`."""
        return f"{self.not_most}, so the limit is not known; `solve` first"

    @property
    def met(self) -> str:
        """Return what says that nothing is short, as a part of a sentence."""
        text = self.page.met.rstrip(".")
        return text[:1].lower() + text[1:]


NETWORK = Words(
    page=PageWords(
        task="can be sent from {source} to {sink}",
        brief_task="can be sent",
        picture="flow from {source} to {sink}",
        choose="Click a {arc} or a place in the picture, or find one by its name.",
        short="Too little arrives",
        met="All demands are met.",
        source="source",
        sink="sink",
        all_given="bottleneck: gives all it can",
        all_taken="gets all it asks for",
        all_through="bottleneck: lets through all it can",
        place="place",
        without="one of these places is shut",
        twice="With a second one beside one of these, more than {{value}} can be sent",
        most="carries",
        flow="Flow",
        idle="nothing flows",
        amount="What it can carry",
        legend="45/60: 45{unit} flow where 60 fit",
        enters="Comes in",
        leaves="Goes out",
        rest="more carry less",
        shut="Shut it",
        again="Open it again",
        shutting="Shutting it",
        is_shut="shut",
        is_open="open",
        through="Passes through",
        added="carries",
        each="What each open {arc} can carry",
        flowing="flow",
        flows="flows",
        fits="fits",
        forms="lost > 10, fits < 60, flows > before, from ~ Mill",
        whole="network",
        line="arc",
        compared="what flows",
        more_flows="more flows in the second",
        less_flows="less flows",
    ),
    size="{arcs} between {places} places",
    crosses="All that is sent has to pass these {count}, and together they carry {value} at most. "
    "To widen only others brings nothing.",
    crosses_one="All that is sent has to pass this one, and it carries {value} at most. To widen "
    "only others brings nothing.",
    severed="Nothing leads from {source} to {sink} any more, so nothing can be sent.",
    carries="carries at most",
    demands="Demands",
    demand="demand",
    demand_titles=("place", "takes at most", "gets"),
    worth="Each value is the most that can be sent with only this {arc} closed, or only this place "
    "shut",
    shut="place that is shut",
    places="places",
    shades={},
    noun="arc",
    does=DOES,
    not_most="the flow is not greatest",
    none_yet="there is no flow yet",
    side="source's side",
    shutting="shutting",
    shut_step="shut {place}",
    open_step="open {place}",
    caption="45/60: 45 flow where 60 fit; thick: full; red: the limit; grey: nothing flows; "
    "dashed: closed; blue places: before the limit",
    difference_caption="30 → 45: flow in the first and in the second; blue: more, thick if only "
    "there; brown: less, dashed if gone; grey: the same",
    differ_most="whose flow differs most",
)
ROSTER = Words(
    page=PageWords(
        task="can be staffed",
        brief_task="can be staffed",
        picture="are staffed",
        choose="Click a person, a day or a shift in the picture, or find one by its name.",
        short="Not fully staffed",
        met="All shifts are staffed.",
        source="person",
        sink="shift",
        all_given="bottleneck: has no {measure} left",
        all_taken="fully staffed",
        all_through="bottleneck: cannot do more that day",
        place="person, day or shift",
        without="one of these is left out",
        twice="If one of these allows twice as much, more than {{value}} can be staffed",
        most="allows",
        flow="Staffed",
        idle="not taken",
        amount="What it allows",
        legend="8/16: 8{unit} are staffed where 16 are allowed",
        enters="Gets",
        leaves="Gives",
        rest="more have less",
        shut="Leave it out",
        again="Take it in again",
        shutting="Leaving it out",
        is_shut="left out",
        is_open="taken in again",
        through="Staffed",
        added="allows",
        each="What each open {arc} allows",
        flowing="are staffed",
        flows="staffed",
        fits="allows",
        forms="lost > 8, allows < 16, staffed > before, from ~ Ann",
        whole="roster",
        line="connection",
        compared="what is staffed",
        more_flows="more is staffed in the second",
        less_flows="less is staffed",
    ),
    size="{people} and {shifts}",
    crosses="All that is staffed counts against these {count}, and together they allow {value} at "
    "most. To raise only others brings nothing.",
    crosses_one="All that is staffed counts against this one, and it allows {value} at most. To "
    "raise only others brings nothing.",
    severed="Nobody can take a shift any more, so nothing can be staffed.",
    carries="allows at most",
    demands="Shifts",
    demand="shift",
    demand_titles=("shift", "needs", "gets"),
    worth="Each value is the most that can be staffed with only this {arc} closed, or only this "
    "person, day or shift left out",
    shut="person, day or shift",
    places="people, days and shifts",
    shades={
        "no flow": "not taken",
        "a wider one brings nothing": "more brings nothing",
        "wider": "allows more",
        "narrower": "allows less",
        "carries more": "more staffed",
        "carries less": "less staffed",
        "not changed (the flows before are not known)": "not changed (what was staffed before is "
        "not known)",
    },
    noun="connection",
    does={SUPPLY: "can work", DEMAND: "needs", LIMIT: "can take"},
    not_most="more can be staffed",
    none_yet="nobody is staffed yet",
    side="before the limit",
    shutting="leaving out",
    shut_step="leave out {place}",
    open_step="take in {place} again",
    caption="8/16: 8 are staffed where 16 are allowed; thick: full; red: the limit; grey: not "
    "taken; dashed: closed; blue: before the limit",
    difference_caption="8 → 16: staffed in the first and in the second; blue: more, thick if only "
    "there; brown: less, dashed if gone; grey: the same",
    differ_most="where what is staffed differs most",
    arc="connection",
)


def words_of(notes: Iterable[str]) -> Words:
    """Return the words for a network, by the notes on how its table was read."""
    return ROSTER if is_of_roster(notes) else NETWORK
