"""Columns that change what rows carry: whether a row is open, and which way it leads. Their cells
are words in English, German, French and Spanish. A word that is not known is a fault with its cell,
since either reading could be meant."""

from __future__ import annotations

from array import array
from collections.abc import Iterator, Mapping, Sequence

from ..text.both_ways import of_pairs
from ..text.lexical import NODES
from ..text.spelling import MOST_TOLD, cleaned, quoted_name
from .headings import STATES, Layout
from .readers import Table
from .sheet import Faults
from .state_words import ANSWERS, BACKWARD, BOTH, FORWARD, VALVE, meaning
from .titles import CLOSED, DIRECTION, FLAGS, OPEN, STATUS, Title


class RowStates:
    """The cells of the columns that say the state or the direction of rows, row by row."""

    def __init__(self, layout: Layout) -> None:
        self.columns = {role: layout.at[role] for role in STATES if role in layout.at}
        self.titles = {role: layout.title(role) for role in self.columns}
        self.cells: dict[str, list[str]] = {role: [] for role in self.columns}

    def settled(self, lines: Sequence[int], faults: Faults) -> dict[str, list[str]]:
        """Return what each row is, by the column. What cannot be read goes to the faults."""
        return {role: self._settled(role, lines, faults) for role in self.columns}

    def _settled(self, role: str, lines: Sequence[int], faults: Faults) -> list[str]:
        cells = self.cells[role]
        title = self.titles[role]
        meant = {cell: meaning(cell, role, title) for cell in set(cells)}
        blank = _meaning_of_blank(role, title, set(meant.values()))
        meant |= {cell: blank for cell in meant if not cleaned(cell)}
        for place, cell in enumerate(cells) if "" in meant.values() else ():
            if not meant[cell]:
                faults.add(_why_not(cell, role, title), lines[place], self.columns[role] + 1)
        return [meant[cell] for cell in cells]


def _meaning_of_blank(role: str, title: Title, others: set[str]) -> str:
    """Return what an empty cell says: no in a column of marks. In another it is what nobody marks,
    unless other cells say just that."""
    if answers := ANSWERS.get(FLAGS.get(title.word, "")):
        return answers[1] if not {*answers} <= others else ""
    usual = OPEN if role == STATUS else FORWARD
    return "" if usual in others else usual


def _why_not(cell: str, role: str, title: Title) -> str:
    said = "open or closed" if role == STATUS else "one way, both ways or reverse"
    what = (
        f"{quoted_name(cleaned(cell))} does not say"
        if cleaned(cell)
        else "an empty cell does not say"
    )
    where = "whether the row is open or closed" if role == STATUS else "which way the row leads"
    return (
        f"{what} {where}; write {said}, or give --ignore {quoted_name(title.text)} to keep the"
        " column as a remark"
    )


def told_states(
    states: Mapping[str, Sequence[str]],
    layout: Layout,
    lines: Sequence[int],
    row_names: Mapping[int, str],
) -> Iterator[str]:
    """Yield what the columns of states changed, with the lines."""
    for role, found in states.items():
        title = layout.called(layout.at[role])
        for state, said in (
            (CLOSED, "closed, and carry nothing"),
            (BACKWARD, "turned, and lead backward"),
            (BOTH, "read as leading both ways"),
        ):
            of = [line for line, it in zip(lines, found) if it == state]
            if of:
                yield f"rows are {said}, as {title} says: {told_lines(of, row_names)}"


def told_lines(lines: Sequence[int], row_names: Mapping[int, str]) -> str:
    """Return lines as messages name them: `line 3`, `lines 3 and 4`, `lines 3, 4 and 17 more`; or
    the names of their rows."""
    shown = [row_names.get(line) or str(line) for line in lines[:MOST_TOLD]]
    rest = len(lines) - len(shown)
    last = f"{rest} more" if rest else shown.pop() if len(shown) > 1 else ""
    word = "" if row_names else f"line{'s' * (len(lines) > 1)} "
    return f"{word}{', '.join(shown)}" + (f" and {last}" if last else "")


def closed_rows(states: Mapping[str, Sequence[str]]) -> list[int]:
    """Return the rows that are closed."""
    return [place for place, state in enumerate(states.get(STATUS, ())) if state == CLOSED]


def lead(table: Table, *, both_ways: bool) -> bool:
    """Turn the rows that lead backward, and puts a row back beside each that leads both ways.
    Returns whether all rows are still to be read as two arcs each, as was asked for; check valves
    are not. Raises a `TableFault` if a column says it too."""
    given, states = table.states.get(DIRECTION), table.states.get(STATUS, ())
    if given is not None and both_ways:
        title = table.layout.called(table.layout.at[DIRECTION])
        how = f"leave out --both-ways, or give --ignore {title}"
        raise table.fault(
            f"--both-ways and the column {title} both say which way rows lead; {how}",
            table.layout.line,
        )
    if given is None and not (both_ways and VALVE in states):
        return both_ways
    ways = list(given or [BOTH if both_ways else FORWARD] * len(table.tails))
    for place, state in enumerate(states):
        if state == VALVE and ways[place] == BOTH:
            ways[place] = FORWARD
    if BACKWARD in ways or BOTH in ways:
        _turn(table, ways)
    return False


def _turn(table: Table, ways: Sequence[str]) -> None:
    rows = [place for place, way in enumerate(ways) for _ in range(1 + (way == BOTH))]
    is_back = [way == BACKWARD or at > 0 for way in ways for at in range(1 + (way == BOTH))]
    tails, heads = table.tails, table.heads
    turned = list(zip(rows, is_back))
    table.tails = array(NODES, (heads[row] if back else tails[row] for row, back in turned))
    table.heads = array(NODES, (tails[row] if back else heads[row] for row, back in turned))
    table.lines = array("Q", (table.lines[row] for row in rows))
    table.amounts.arrange(rows, table.lines)
    table.labels = [table.labels[row] for row in rows] if table.labels else ()
    unlimited = {*table.unlimited}
    table.unlimited = [at for at, row in enumerate(rows) if row in unlimited]
    table.both_ways = of_pairs(
        (at, at + 1) for at, (row, after) in enumerate(zip(rows, rows[1:]), 1) if row == after
    )
