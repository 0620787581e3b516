"""A page in HTML to hand on.

It has the value of the present scenario, its bottleneck, its picture and its demands; what is worst
to lose and best to have twice; a table of all scenarios, and smaller pictures of the others, with
what differs from the network of the table; and that `dmf check` finds each flow greatest.
`report.html` is its frame."""

from __future__ import annotations

import os
import subprocess
import tempfile
from collections.abc import Callable, Iterable, Iterator
from dataclasses import dataclass
from html import escape
from pathlib import Path

from ...errors import NumberTooLarge
from ...quantity import EXACT, Quantity, magnitude
from ...session import executable
from ...session.base import Program
from ...text.lexical import display
from ...text.table_comments import DEMAND
from ..answers import LARGE
from ..demands import limited_amounts
from ..export import problem, taken
from ..pictures.picture import Picture
from ..seconds import MOST_SECONDS, are_found_together, seconds_of
from ..steps import DeskFault, Solve, Step
from ..workspace import Desk
from ..worth import MOST_PAIRED, MOST_PAIRS, Loss, worst, worst_pairs, worst_places
from .comparison import ArcDifference, compare
from .records import ENDING, Scenario
from .report_findings import Demand, Findings, Section, Tried, Worst, WorstLosses
from .report_ground import Grounds, Paper, grounds_of
from .report_picture import ReportPicture, drawn_on
from .report_text import report_lines
from .scenarios import BASE, Scenarios

# How many arcs and places are listed as the worst to lose; beside how many arcs of the limit a
# second one is tried, if each takes a solve; and how long a check may take, in seconds.
MOST_ARCS, MOST_PLACES, MOST_TRIED = 10, 5, 300
PATIENCE = 60
# The room for the picture of the present scenario on a sheet of A4, and for that of another one.
SHEET, HALF_SHEET = Paper(500.0, 280.0), Paper(244.0, 150.0)


def checked(desk: Desk, program: Program = None) -> str:
    """Return what `dmf check` writes of the present flow: `c greatest 165`. Raise a `DeskFault` if
    it finds none."""
    network = desk.network
    flows, measure = desk.arc_flows(), network.measure
    lines = [f"s {measure.whole(desk.value)}\n"]
    lines += (
        f"f {line.tail} {line.head} {flows[number - 1]}\n" for number, line in network.opened()
    )
    with tempfile.NamedTemporaryFile("w", prefix="dmf-", suffix=".max") as file:
        file.write(problem(desk))
        file.flush()
        used = executable.program() if program is None else program
        try:
            words = [used, "check", file.name]
            ran = subprocess.run(
                words,
                input="".join(lines).encode(),
                capture_output=True,
                timeout=PATIENCE,
                check=False,
            )
        except subprocess.TimeoutExpired:
            raise DeskFault(f"dmf check took more than {PATIENCE} seconds") from None
    told = (ran.stdout or ran.stderr).decode(errors="replace").strip()
    if ran.returncode:
        raise DeskFault(f"dmf check does not confirm the flow: {told}")
    return told


def _demands(desk: Desk) -> Iterator[Demand]:
    """Yield what each place takes, where that is limited."""
    for node, it in limited_amounts(desk, DEMAND).items():
        yield Demand(desk.network.names.node(node), it.limit, it.flow)


@dataclass(frozen=True)
class _Shown:
    """What a section is about: the present scenario, or another one; the network of the table is
    none. `first` is the number of steps before the first one that is told."""

    name: str
    is_present: bool
    first: int = 1
    scenario: Scenario | None = None
    differences: tuple[ArcDifference, ...] = ()


def _section(desk: Desk, shown: _Shown, grounds: Grounds) -> Section:
    """Return what is to be said of what a desk shows."""
    network, name_of, cut = desk.network, desk.network.names.arc, [*desk.cut_arcs()]
    limit = zip(cut, desk.flows_on(cut))
    picture, why, scenario = ReportPicture(), "", shown.scenario
    try:
        picture = drawn_on(grounds, desk, SHEET if shown.is_present else HALF_SHEET)
    except DeskFault as fault:
        why = str(fault)
    return Section(
        shown.name,
        shown.is_present,
        scenario.begun_from if scenario else "",
        scenario.note if scenario else "",
        desk.value,
        tuple(_changes(desk.steps[shown.first : desk.at])),
        tuple(step.text for step in scenario.left_out) if scenario else (),
        tuple((name_of(number), magnitude(flow)) for number, flow in limit),
        tuple(map(network.names.short, cut)),
        tuple(network.names.side(desk.side())),
        tuple(sorted(_demands(desk), key=lambda it: it.arrives - it.wanted)),
        shown.differences,
        picture,
        why,
        checked(desk),
    )


def _changes(steps: Iterable[Step]) -> list[tuple[str, Quantity]]:
    """Return the changes in words, each with the value after it, which a solve may have found."""
    found: list[tuple[str, Quantity]] = []
    for step in steps:
        if step.changes != (Solve(),):
            found.append((step.text, step.value))
        elif found:
            found[-1] = found[-1][0], step.value
    return found


def _sections(desk: Desk, page: Picture | None) -> Iterator[Section]:
    """Yield what is to be said of each scenario, or of a desk that no project keeps. Places lie
    where they are in all pictures, as in that of the page, if one shows the desk."""
    grounds = grounds_of(desk, SHEET.wide / SHEET.high, page)
    project = Scenarios.of(desk)
    if project is None:
        yield _section(desk, _Shown("the plan", True, 0), grounds)
        return
    with project.visiting(BASE) as shown:
        yield _section(shown, _Shown(BASE, not project.project.scenarios), grounds)
    for scenario in project.project.scenarios:
        differences = compare(project, BASE, scenario.name).arcs
        is_present = scenario.name == project.scenario.name
        with project.visiting(scenario.name) as shown:
            about = _Shown(scenario.name, is_present, 1, scenario, differences)
            yield _section(shown, about, grounds)


def _tried(desk: Desk) -> Tried:
    """Return what the arcs and places of the present state mean for its value."""
    value, name, cut = desk.value, desk.network.names.arc, [*desk.cut_arcs()]
    tried = cut if are_found_together(desk) else cut[:MOST_TRIED]
    gains = [
        (name(it.arc), EXACT.subtract(it.doubled, value))
        for it in seconds_of(desk, tried)
        if it.doubled is not None and it.doubled > value
    ]
    gains.sort(key=lambda it: -it[1])
    return Tried(
        desk.state.scenario or "the plan",
        value,
        _losses(desk),
        Worst(tuple(gains[:MOST_SECONDS]), max(0, len(gains) - MOST_SECONDS)),
        len(cut),
        len(tried),
    )


def _losses(desk: Desk) -> WorstLosses | None:
    """Return what is worst to lose, or None if the network is too large to ask."""
    network = desk.network
    if len(network.lines) >= LARGE:
        return None

    def named(found: list[Loss], more: int, name: Callable[[int], str]) -> Worst:
        return Worst(tuple((name(it.number), it.loss) for it in found), more)

    return WorstLosses(
        named(*worst(desk, MOST_ARCS), network.names.arc),
        named(*worst_places(desk, MOST_PLACES), network.names.node),
        _pairs(desk),
        len(network.opened_pipes()),
        len(network.inner_places()),
    )


def _pairs(desk: Desk) -> Worst | None:
    """Return the pairs of arcs that cost most to lose together, or None if the network is too large
    or the list would be too long."""
    network = desk.network
    if len(network.lines) > MOST_PAIRED:
        return None
    try:
        found = worst_pairs(desk, MOST_PAIRS)
    except NumberTooLarge:
        return None
    short = network.names.short
    return Worst(tuple((" and ".join(map(short, it.numbers)), it.loss) for it in found), 0)


def _table_arcs(desk: Desk) -> int:
    """Count the arcs of the table. One that was closed and opened again has a new number, and is
    the arc that it was."""
    network = desk.network
    return sum(
        (network.line(number).first or number) <= network.first_count
        for number in network.pictured()
    )


def findings(desk: Desk, page: Picture | None = None) -> Findings:
    """Return the content of a report. `page` is the picture of the page that shows the desk, if one
    does. This takes as long as the steps of all scenarios, a comparison of each, and a sweep. Raise
    a `DeskFault` if the flow is not greatest."""
    network = desk.network
    if not desk.is_greatest:
        raise DeskFault(desk.network.words.limit_not_known)
    subject, names = network.subject, network.names
    ends = ([*map(names.node, it)] for it in (network.sources, network.sinks))
    kept = Scenarios.of(desk)
    with_notes, assumed = (
        (kept.project.notes, kept.project.table.assumed) if kept else ("", subject.notes)
    )
    return Findings(
        os.path.basename(subject.path).removesuffix(ENDING),
        with_notes,
        network.measure.told_unit,
        subject.noun or "arc",
        names.terminal(network.source),
        names.terminal(network.sink),
        len(network.sources),
        len(network.sinks),
        tuple(desk.network.words.page.tasks(*ends)),
        desk.network.words,
        _table_arcs(desk),
        len(names.places),
        tuple(assumed),
        tuple(_sections(desk, page)),
        _tried(desk),
    )


def report(desk: Desk, page: Picture | None = None) -> str:
    """Return the report of a desk: of a project with all its scenarios, or else of the present
    state. It carries the present problem. `page` is the picture of the page that shows the desk, if
    one does. This takes as long as the steps of all scenarios, a comparison of each, and a sweep.
    Raise a `DeskFault` if the flow is not greatest, and what a session raises."""
    found = findings(desk, page)
    frame = (Path(__file__).with_name("report.html")).read_text(encoding="utf-8")
    title = f"{display(found.title)}: report"
    text = frame.replace("{title}", escape(title)).replace("{body}", "\n".join(report_lines(found)))
    return taken(desk, text.encode()).decode()
