"""The text of a report: what was found, as markup."""

from __future__ import annotations

import base64
import re
import time
from collections.abc import Iterator

from ... import __version__
from ...quantity import EXACT, Quantity, moved, plain_text
from ...text.table_comments import listed
from ..pictures.inks import INKS
from .comparison import BOTTLENECK, ArcDifference
from .report_findings import Demand, Findings, Section
from .report_markup import (
    MOST_NAMES,
    MOST_ROWS,
    counted,
    filled,
    safe_lines,
    safe_text,
    some_of,
    table_lines,
    told_amount,
)
from .report_trials import trial_lines
from .scenarios import BASE

# How many scenarios have a picture beside the present one, so that there are two pages at most; and
# the longest sentence in the heading.
MOST_OTHERS, LONGEST_TASK = 2, 60


def _head(found: Findings) -> Iterator[str]:
    """Yield the value of the present scenario, its bottleneck and what is short."""
    shown, words = found.present, found.words
    scenario = f" · {safe_text(shown.name)}" if len(found.sections) > 1 else ""
    yield (
        f'<p class="faint">{safe_text(found.title)}{scenario} · {time.strftime("%-d %B %Y")} · '
        f"{filled(words.size, found)}</p>"
    )
    task = next((it for it in found.tasks if len(it) <= LONGEST_TASK), found.tasks[-1])
    by = _by(found, shown)
    yield f"<h1><strong>{told_amount(shown.value, found.unit)}</strong> {safe_text(task)}{by}</h1>"
    yield f"<p>{_bottleneck(found, shown)}{_short(found, shown)}</p>"
    if found.notes:
        yield f'<p class="note">{safe_lines(found.notes)}</p>'
    yield from _about(shown)


def _by(found: Findings, it: Section) -> str:
    """Return by what a value differs from that of the network of the table."""
    base = found.sections[0]
    if it is base:
        return ""
    text = f"{moved(base.value, it.value)} than {BASE}" if it.value != base.value else f"as {BASE}"
    return f" <small>({text})</small>"


def _bottleneck(found: Findings, it: Section) -> str:
    """Return the bottleneck in a sentence."""
    if not it.limit:
        return filled(found.words.severed, found)
    arcs = some_of(it.limit_names)
    together = f", together {told_amount(it.value, found.unit)}" if len(it.limit) > 1 else ""
    return f'<strong class="limit">Bottleneck:</strong> {arcs}{together}.'


def _short(found: Findings, it: Section) -> str:
    """Return what is short in a sentence."""
    short = [one for one in it.demands if one.arrives < one.wanted]
    if not short:
        return f" {found.words.page.met}" if it.demands else ""
    missing = (
        f"{one.place} {plain_text(EXACT.subtract(one.wanted, one.arrives))}" for one in short
    )
    return f' <strong class="limit">Short:</strong> {some_of(missing)}.'


def _about(it: Section) -> Iterator[str]:
    """Yield where a scenario comes from, its note, and the steps that were left out."""
    if it.begun_from:
        yield f'<p class="faint">begun with the steps of {safe_text(it.begun_from)}</p>'
    if it.note:
        yield f'<p class="note">{safe_lines(it.note)}</p>'
    if it.left_out:
        steps = "; ".join(map(safe_text, it.left_out[:MOST_NAMES]))
        more = f"; and {len(it.left_out) - MOST_NAMES} more" * (len(it.left_out) > MOST_NAMES)
        yield (
            "<p>Left out, since the table has changed and they mean nothing in it any more: "
            f"{steps}{more}.</p>"
        )


def _figure(found: Findings, it: Section) -> Iterator[str]:
    """Yield the picture of a scenario with its legend, or why there is none."""
    if not it.picture.svg:
        yield f'<p class="faint">There is no picture: {safe_text(it.no_picture)}.</p>'
        return
    data = base64.b64encode(it.picture.svg.encode()).decode()
    yield (
        f'<figure><img alt="The network of {safe_text(it.name)}; the bottleneck is orange" '
        f'src="data:image/svg+xml;base64,{data}"></figure>'
    )
    words = found.words.shades
    shades = (
        f'<span><i class="{"dashed" if it.is_dashed else "line"}" '
        f'style="border-color: {INKS[it.ink]}"></i>{words.get(it.words, it.words)}</span>'
        for it in it.picture.shades
    )
    part = f" · the {it.picture.arcs} of {found.arcs} nearest to the bottleneck"
    yield (
        f'<p class="faint legend">{" ".join(shades)} <span>thickness: capacity'
        f"{part * bool(it.picture.arcs)}</span></p>"
    )


def _scenarios(found: Findings) -> Iterator[str]:
    """Yield the table of the scenarios: what each changes, and its value."""
    base = found.sections[0]
    yield "<h2>The scenarios</h2>"
    rows = [
        [
            safe_text(it.name),
            _some_steps(it),
            plain_text(it.value),
            "" if it is base else moved(base.value, it.value),
        ]
        for it in found.sections
    ]
    unit = safe_text(f"greatest value ({found.unit})" if found.unit else "greatest value")
    titles = ("scenario", False), ("what changes", False), (unit, True), ("against base", True)
    yield from table_lines(titles, rows)


def _some_steps(it: Section) -> str:
    steps = "; ".join(safe_text(text) for text, _ in it.steps[:MOST_NAMES])
    more = len(it.steps) - MOST_NAMES
    return steps + f" and {more} more" * (more > 0)


def _present_lines(found: Findings) -> Iterator[str]:
    """Yield all of the present scenario."""
    it = found.present
    yield from _figure(found, it)
    has_table = len(found.sections) > 1
    if has_table:
        yield from _scenarios(found)
    yield '<div class="columns">'
    # The table of the scenarios has the steps, if they are few.
    if it.steps and not (has_table and len(it.steps) <= MOST_NAMES):
        yield from ("<div>", *_steps(it.steps, found.unit), "</div>")
    yield from ("<div>", *_limit(found, it), "</div>")
    if it.demands:
        yield from ("<div>", *_demands(it.demands, found), "</div>")
    yield "</div>"
    if it.differences:
        yield from _differences(it.differences)


def _other_lines(found: Findings) -> Iterator[str]:
    """Yield the other scenarios beside each other, the first ones if there are many."""
    others = [it for it in found.sections if not it.is_present]
    if not others:
        return
    yield '<h2>The other scenarios</h2><div class="others">'
    for it in others[:MOST_OTHERS]:
        yield f"<section><header><h3>{safe_text(it.name)}</h3>"
        value = told_amount(it.value, found.unit)
        yield f"<p><strong>{value}</strong>{_by(found, it)}</p></header>"
        yield from _about(it)
        yield from _figure(found, it)
        yield f"<p>{_bottleneck(found, it)}{_short(found, it)}</p>"
        if it.differences:
            yield from _differences(it.differences)
        yield "</section>"
    yield "</div>"
    if len(others) > MOST_OTHERS:
        more = counted(len(others) - MOST_OTHERS, "scenario")
        yield f'<p class="faint">and {more} more, in the table alone</p>'


def _steps(steps: tuple[tuple[str, Quantity], ...], unit: str) -> Iterator[str]:
    """Yield the changes, the last ones if there are many, each with the value after it."""
    hidden = max(0, len(steps) - MOST_ROWS)
    yield "<h3>What was changed</h3>"
    if hidden:
        yield f'<p class="faint">{counted(hidden, "step")} before these</p>'
    then = safe_text(f"then ({unit})" if unit else "then")
    rows = [[safe_text(text), plain_text(value)] for text, value in steps[hidden:]]
    yield from table_lines([("change", False), (then, True)], rows)


def _limit(found: Findings, it: Section) -> Iterator[str]:
    """Yield the limit in plain words."""
    words = found.words
    yield "<h3>The bottleneck</h3>"
    if not it.limit:
        yield f"<p>{filled(words.severed, found)}</p>"
        return
    crosses = words.crosses_one if len(it.limit) == 1 else words.crosses
    value = told_amount(it.value, found.unit)
    yield f"<p>{filled(crosses, found, count=len(it.limit), value=value)}</p>"
    rows = [
        [f'<span class="limit">{safe_text(arc)}</span>', plain_text(amount)]
        for arc, amount in it.limit
    ]
    yield from table_lines([("limit", False), (words.carries, True)], rows)
    if it.side:
        more = f" and {len(it.side) - MOST_NAMES} more" if len(it.side) > MOST_NAMES else ""
        side = ", ".join(map(safe_text, it.side[:MOST_NAMES]))
        yield f'<p class="faint">Before it: {side}{more}.</p>'


def _met(demands: tuple[Demand, ...], found: Findings) -> str:
    """Return how many demands are short, or that all are met."""
    short = [it for it in demands if it.arrives < it.wanted]
    count, noun = len(demands), found.words.demand
    if short:
        return f"{len(short)} of {counted(count, noun)} {'is' if len(short) == 1 else 'are'} short"
    return f"{f'The {noun} is' if count == 1 else f'All {count} {noun}s are'} met"


def _demands(demands: tuple[Demand, ...], found: Findings) -> Iterator[str]:
    """Yield which places get what they take, those that are short of most first."""
    words, unit = found.words, found.unit
    yield f"<h3>{words.demands}</h3><p>{_met(demands, found)}.</p>"
    rows = [
        [
            safe_text(it.place),
            plain_text(it.wanted),
            plain_text(it.arrives),
            _demand_state(it, unit),
        ]
        for it in demands
    ]
    place, wanted, gets = words.demand_titles
    yield from table_lines([(place, False), (wanted, True), (gets, True), ("", True)], rows)


def _demand_state(demand: Demand, unit: str) -> str:
    """Return how much a demand is short of, or that it is met."""
    if demand.arrives >= demand.wanted:
        return "met"
    short = told_amount(EXACT.subtract(demand.wanted, demand.arrives), unit)
    return f'<span class="limit">{short} short</span>'


def _differences(differences: tuple[ArcDifference, ...]) -> Iterator[str]:
    yield f"<h3>What differs from {BASE}</h3>"
    rows = [
        [
            safe_text(it.arc),
            safe_text(it.first.told(BOTTLENECK)),
            safe_text(it.second.told(BOTTLENECK)),
        ]
        for it in differences[:MOST_NAMES]
    ]
    more = max(0, len(differences) - MOST_NAMES)
    yield from table_lines([("", False), (BASE, False), ("here", False)], rows, more)


def _brief(note: str) -> str:
    """Return a note with at most five of the names that it lists."""
    words, colon, names = note.partition(": ")
    first, more, rest = names.rpartition(" and ")
    is_cut = more and rest.endswith(" more") and rest.removesuffix(" more").isdigit()
    listed_names = re.split(", (?=')", first if is_cut else names)
    count = len(listed_names) - MOST_NAMES
    if count <= 0:
        return note
    count += int(rest.removesuffix(" more")) if is_cut else 0
    return f"{words}{colon}{', '.join(listed_names[:MOST_NAMES])} and {count} more"


def _method(found: Findings) -> Iterator[str]:
    """Yield how the values were reckoned, in one sentence, and what was taken for granted."""
    yield "<h2>How it was reckoned</h2>"
    judged = [f"{safe_text(it.name)} <code>{safe_text(it.check)}</code>" for it in found.sections]
    yield (
        f"<p>Values and bottlenecks are those of dmf {__version__}, whose solves are proved to "
        f"find the greatest value, and <code>dmf check</code> judged each flow "
        f"({listed(judged, MOST_NAMES)}); the code that writes them into this report is tested, "
        f"but not proved.</p>"
    )
    if found.assumed:
        yield (
            '<p class="faint">Taken for granted when the table was read: '
            f'{"; ".join(safe_text(_brief(it)) for it in found.assumed)}.</p>'
        )


def report_lines(found: Findings) -> Iterator[str]:
    """Yield the lines of a report."""
    yield from _head(found)
    yield from _present_lines(found)
    yield from trial_lines(found)
    yield from _other_lines(found)
    yield from _method(found)
