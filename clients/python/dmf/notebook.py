"""How networks, flows and cuts show themselves in a notebook: as a picture of Graphviz, or as a
table."""

from __future__ import annotations

import cmath
import html
import io
import os
from collections.abc import Iterable, Sequence
from itertools import islice
from typing import Any

from .arcs import OpenArcs
from .files import write_file
from .session.base import import_package
from .text.drawing import CUT, UNUSED, Drawing, graphviz, nearest, picture
from .text.lexical import MOST_DRAWN, display
from .text.problem_text import ArcRecord, Problem
from .text.spelling import picture_names
from .text.table_comments import TableComments

# The most rows of a table.
MOST_ROWS = 20


class Look:
    """A network at one time, with its flow, and the side of its cut if it has one."""

    def __init__(
        self,
        arcs: OpenArcs[Any],
        ends: tuple[int, int],
        flows: Sequence[int],
        capacities: Sequence[int],
        side: set[int],
        described: TableComments,
    ) -> None:
        """Take the source and the sink as `ends`, and `flows` and `capacities` of the open arcs."""
        drawn = list(zip(*arcs.ends(), capacities))
        keys = {place: key for place, key in enumerate(arcs.keys(), 1) if key is not None}
        problem = Problem(
            len(arcs.columns.numbers),
            *ends,
            drawn,
            *picture_names(arcs.columns.names, keys),
            described,
        )
        self.drawing = Drawing(problem, [ArcRecord(*row) for row in drawn], list(flows), side)

    def text(self) -> bytes:
        """Return the text for Graphviz."""
        return "".join(f"{line}\n" for line in picture(self.drawing, MOST_DRAWN)).encode(
            errors="replace"
        )

    def drawn(self, form: str) -> bytes:
        """Return the picture in a format of Graphviz, such as `svg` or `png`. Raises a
        FileNotFoundError if Graphviz is not installed, and a RuntimeError with what it reports."""
        return graphviz(self.text(), "dot", f"-T{form}")

    def svg(self) -> str | None:
        """Return the picture, or None if Graphviz is not installed or fails."""
        try:
            return self.drawn("svg").decode()
        except (OSError, RuntimeError):
            return None


def draw(look: Look, path: str) -> None:
    """Write a picture to a file, in the format of the file's ending."""
    form = os.path.splitext(path)[1][1:].lower()
    write_file(path, look.text() if form in ("dot", "gv") else look.drawn(form or "svg"))


def plot(look: Look) -> Any:
    """Return axes of matplotlib with the picture of Graphviz, or with the nodes on a circle if
    Graphviz is not installed."""
    pyplot = import_package("matplotlib.pyplot", "a plot without a path")
    axes = pyplot.subplots()[1]
    axes.set_axis_off()
    try:
        axes.imshow(pyplot.imread(io.BytesIO(look.drawn("png"))))
    except FileNotFoundError:
        _circle(look.drawing, axes)
    return axes


def _circle(drawing: Drawing, axes: Any) -> None:
    places = nearest(drawing, MOST_DRAWN)
    nodes = sorted(
        {*drawing.terminals(), *(node for place in places for node in drawing.arcs[place][:2])}
    )
    at = {
        node: cmath.rect(1, cmath.pi * (1 - 2 * turn / len(nodes)))
        for turn, node in enumerate(nodes)
    }
    axes.set_xlim(-1.3, 1.3)
    axes.set_ylim(-1.3, 1.3)
    for place in places:
        arc, flow = drawing.arcs[place], drawing.flows[place]
        begin, end = at[arc.tail], at[arc.head]
        color = CUT if drawing.is_cut(arc) else UNUSED if not flow else "black"
        axes.annotate(
            "",
            (end.real, end.imag),
            (begin.real, begin.imag),
            arrowprops={"arrowstyle": "->", "color": color},
        )
        middle = begin + 0.4 * (end - begin)
        axes.text(middle.real, middle.imag, f"{flow}/{arc.capacity}", color=color, ha="center")
    for node, spot in at.items():
        name = display(drawing.problem.node_names.get(node, str(node)))
        axes.text(1.12 * spot.real, 1.12 * spot.imag, name, ha="center", va="center", weight="bold")


def table(title: str, head: Iterable[str], count: int, rows: Iterable[Iterable[object]]) -> str:
    """Return a table in HTML with the first of `count` rows."""
    lines = [f"<p>{html.escape(title)}</p><table><thead>{_row('th', head)}</thead><tbody>"]
    lines += [_row("td", row) for row in islice(rows, MOST_ROWS)]
    lines.append("</tbody></table>")
    if count > MOST_ROWS:
        lines.append(f"<p>and {count - MOST_ROWS:,} more</p>")
    return "\n".join(lines)


def _row(kind: str, cells: Iterable[object]) -> str:
    return (
        "<tr>" + "".join(f"<{kind}>{html.escape(str(cell))}</{kind}>" for cell in cells) + "</tr>"
    )
