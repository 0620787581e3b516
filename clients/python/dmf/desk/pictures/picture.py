"""The picture on a board: drawn by Graphviz once for what it shows, with each place where it was
before, and filled with the flows and the cut at each step."""

from __future__ import annotations

from collections.abc import Iterator
from xml.etree import ElementTree

from ...text.drawing import CUT, SIDE, UNUSED, drawn_line, quoted
from ..export import MOST_DRAWN, said_of
from ..workspace import Desk
from .arrows import add_arrows
from .dots import SETTINGS, mark_dots
from .filling import fill
from .layout import MOST_LAYERED, Places, Spot, Way, run
from .layout_run import LayoutRun
from .shapes import PictureShapes, Shape
from .svg import allowed, set_view, written

# Up to this many places, arcs are routed around places, which takes a second for 50 of them.
MOST_ROUTED = 20
# The most layouts that are kept.
MOST_KEPT = 8
STYLE = f"""
text {{ font-family: Helvetica, Arial, sans-serif; }}
.full path {{ stroke-width: 2.5; }}
.unused path, .unused polygon, .closed path, .closed polygon {{ stroke: {UNUSED}; }}
.unused polygon, .closed polygon {{ fill: {UNUSED}; }}
.node.cut ellipse {{ stroke: {CUT}; stroke-width: 2.5; }}
.unused text, .closed text, .shut text {{ fill: {UNUSED}; }}
.closed path {{ stroke-dasharray: 5 2; }}
.cut path, .cut polygon {{ stroke: {CUT}; }}
.cut polygon, .arc.cut text, text.cut, text.short {{ fill: {CUT}; }}
.side ellipse.inner {{ fill: {SIDE}; }}
.shut ellipse {{ stroke: {UNUSED}; }}
.part ellipse {{ stroke-dasharray: 5 2; }}
"""


def _text(lines: Iterator[str]) -> str:
    return "".join(f"{line}\n" for line in lines)


class Picture:
    """The pictures of a desk, and the position of its places in all of them."""

    def __init__(self, desk: Desk) -> None:
        self._desk = desk
        self._shapes = PictureShapes(desk)
        self.places = Places(sources=frozenset(desk.network.sources))
        # Whether places may lie as on a map, where they may be close to each other.
        self.is_map = False
        # The layouts of the last shapes, so that a step back finds its own, with the spots of their
        # places: these may have been moved by hand since. Some have dots for places.
        self._layouts: dict[tuple[Shape, bool], tuple[list[Spot], str]] = {}

    def svg(self, nodes: tuple[int, ...], arcs: list[int], *, to_take: bool = False) -> str:
        """Return the picture of these arcs, and of these nodes even if they have no arc. With
        `to_take`, for a file of its own, it contains its style, and names in all places. Raises
        `NoPicture`."""
        self.put_made()
        shape = self._shapes.of(arcs, nodes)
        is_dotted = not to_take and (self.is_map or len(shape.nodes) > MOST_LAYERED)
        root = self.laid_out(shape, is_dotted=is_dotted)
        fill(root, shape, self._desk)
        return written(root, STYLE, caption(self._desk)) if to_take else written(root)

    def put(self, arcs: list[int], nodes: tuple[int, ...]) -> None:
        """Give each place of a picture a spot. Raises `NoPicture`."""
        self.put_made()
        shape = self._shapes.of(arcs, nodes)
        ways = shape.ways()
        drawn = [it.node for it in shape.nodes]
        self.places.put(drawn, [*ways.values()], _text(self._lines(shape, ways)))

    def put_made(self) -> None:
        """Put each place that was made, and has no spot yet, beside its neighbours."""
        network, places = self._desk.network, self.places
        made = network.names.made
        places.call(made)
        if made.keys() <= places.spots.keys():
            return
        ends = [self._shapes.ends(line) for line in network.lines[network.first_count :]]
        every = [self._shapes.ends(network.lines[it - 1]) for it in network.pictured()[:MOST_DRAWN]]
        seen = places.seen
        lines = [(seen[one], seen[two]) for one, two in every if {one, two} <= seen.keys()]
        for node in sorted(made.keys() - places.spots.keys()):
            others = {it for pair in ends if node in pair for it in pair} & places.spots.keys()
            if others:
                places.put_beside(node, [places.seen[it] for it in others], lines)

    def laid_out(self, shape: Shape, *, is_dotted: bool = False) -> ElementTree.Element:
        """Return the layout of a shape, without numbers. If it is dotted, its places are dots, with
        room for their names beside them. Raises `NoPicture`."""
        key = shape, is_dotted
        spots, layout = self._layouts.pop(key, ([], ""))
        if not layout or spots != self._seen_of(shape):
            layout = self._lay_out(shape, is_dotted)
        self._layouts = dict([*self._layouts.items()][1 - MOST_KEPT :])
        self._layouts[key] = self._seen_of(shape), layout
        root = ElementTree.fromstring(layout)
        set_view(root)
        add_arrows(root)
        if is_dotted:
            mark_dots(root)
        return root

    def begin_layout(self, arcs: list[int], nodes: tuple[int, ...], version: int) -> LayoutRun:
        """Begin to lay out these arcs and nodes anew, in a thread of its own."""
        shape = self._shapes.of(arcs, nodes)
        ways = shape.ways()
        text = _text(self._lines(shape, ways))
        drawn = [it.node for it in shape.nodes]
        found = Places(form=self.places.form, sources=self.places.sources)
        found.called.update(self._desk.network.names.made)
        return LayoutRun(text, drawn, [*ways.values()], found, version)

    def _seen_of(self, shape: Shape) -> list[Spot]:
        """Return where the places of a shape are seen, as far as they have spots."""
        seen = self.places.seen
        return [seen[it.node] for it in shape.nodes if it.node in seen]

    def _lay_out(self, shape: Shape, is_dotted: bool) -> str:
        ways = shape.ways()
        drawn = self.places.put(
            [it.node for it in shape.nodes], [*ways.values()], _text(self._lines(shape, ways))
        )
        if drawn and not is_dotted:
            return drawn
        put = self._lines(shape, ways, is_put=True, is_dotted=is_dotted)
        return run(_text(put), "neato", "-n2", "-Tsvg")

    def _lines(
        self,
        shape: Shape,
        ways: dict[int, Way],
        *,
        is_put: bool = False,
        is_dotted: bool = False,
    ) -> Iterator[str]:
        """Yield the lines of a picture for Graphviz. With `is_put` it has the spots and routes that
        are known, and may be dotted."""
        network, seen = self._desk.network, self.places.seen
        is_straight = is_dotted or is_put and len(shape.nodes) > MOST_ROUTED
        splines = "line" if is_straight else "true"
        yield (
            "digraph dmf {\n  rankdir=LR; bgcolor=transparent; ranksep=0.2; nodesep=0.6; "
            f"splines={splines}; notranslate=true"
        )
        yield '  node [fontname="Helvetica"]\n  edge [fontname="Helvetica", fontsize=11]'
        if is_dotted:
            yield SETTINGS
        if network.measure.legend:
            yield f'  fontname="Helvetica"; fontsize=11; label={quoted(network.measure.legend)}'
        for it in shape.nodes:
            roles = [f"{words} {widest}" for _, words, widest in it.roles]
            looks = {
                "id": quoted(f"node-{it.node}"),
                "label": quoted(
                    allowed(it.label), *roles, *[network.words.page.is_shut] * it.is_shut
                ),
            }
            if it.node in (*network.sources, *network.sinks):
                looks["peripheries"] = "2"
            if is_put:
                looks["pos"] = '"{:.2f},{:.2f}"'.format(*seen[it.node])
            yield drawn_line(str(it.node), looks)
        for arc in shape.arcs:
            label = quoted(allowed(arc.name), arc.widest) if arc.name else quoted(arc.widest)
            way = ways[arc.number]
            looks = {
                "id": quoted(f"arc-{arc.number}"),
                "label": label,
                "class": '"{} {} {}"'.format(*way),
            }
            route = self.places.route(way) if is_put and not is_dotted else None
            if route:
                named = zip(("pos", "lp"), route)
                looks.update({name: quoted(text) for name, text in named if text})
            yield drawn_line(f"{arc.tail} -> {arc.head}", looks)
        yield "}"


def caption(desk: Desk) -> list[str]:
    """Return the lines below a picture that is saved: what it shows, from which day, and how to
    read it, with the unit."""
    return [*said_of(desk), desk.network.words.caption]
