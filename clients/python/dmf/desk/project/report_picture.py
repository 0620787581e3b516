"""The picture of a report: that of the page, drawn for a sheet of A4. Lines are coloured by use and
as thick as their capacity, the bottleneck lies on top, and labels can be read. Lengths are in
points."""

from __future__ import annotations

import math
from collections import defaultdict
from collections.abc import Iterator, Sequence
from html import escape
from typing import NamedTuple

from ..pictures.arc_numbers import short_amounts
from ..pictures.inks import BOTTLENECK, IDLE, INKS, SHADES, SHUT, Shade, shade_of
from ..pictures.svg import allowed
from ..pipes import STILL, THERE
from ..workspace import Desk
from .report_ground import PIXEL, Ground, GroundLine, GroundPlace, Grounds, Paper, Point
from .report_labels import LIMIT as LIMIT_COST
from .report_labels import (
    LINE,
    ORDINARY,
    SIZE,
    UNUSED,
    Box,
    Ink,
    Labels,
    Put,
    Text,
    Wish,
    middle,
    most_labels,
)
from .report_ovals import ovals_of, routes_of

# The radius of a source or a sink, and of another place at most; the usual length of lines from
# which other places are drawn; and the size of the halo behind letters.
END, MOST_PLAIN, PLAIN_FROM, HALO = 5.0, 3.0, 24.0, 2.5
# The shortest line with an arrow; how thick a line is at least that has it inside, and how much
# smaller it is there.
SHORT, INSIDE, WITHIN = 34 * PIXEL, 5 * PIXEL, 0.65
# The least thickness of a line of the bottleneck.
LEAST_LIMIT = 1.6
# How many other lines and places are tried for the labels that are left.
MOST_TRIED = 100


class ReportPicture(NamedTuple):
    """A picture as the text of an SVG, the entries of its legend, and how many arcs it has, if not
    all; empty if there is none."""

    svg: str = ""
    shades: tuple[Shade, ...] = ()
    arcs: int = 0


def drawn_on(grounds: Grounds, desk: Desk, sheet: Paper) -> ReportPicture:
    """Return the picture of a desk on a sheet. Raise a `DeskFault` if it cannot be drawn."""
    ground = grounds.of(desk, sheet)
    used = {shade_of(line.mark) for line in ground.lines}
    if any(place.is_limit for place in ground.places):
        used.add(BOTTLENECK)
    svg = "\n".join(_Drawing(desk, ground).lines())
    shades = tuple(shade for shade in SHADES if shade in used)
    return ReportPicture(svg, shades, 0 if ground.is_whole else len(ground.lines))


def _path(points: Sequence[Point]) -> str:
    return "M" + "L".join(f"{x:.1f} {y:.1f}" for x, y in points)


class _Drawing:
    """A ground as it is drawn."""

    def __init__(self, desk: Desk, ground: Ground) -> None:
        self._desk, self._ground = desk, ground
        self._ovals = ovals_of(ground)
        self._routes = routes_of(ground, self._ovals)
        self._plain = min(MOST_PLAIN, ground.usual / 11) if ground.usual >= PLAIN_FROM else 0.0

    def lines(self) -> Iterator[str]:
        """Yield the lines of the SVG."""
        wide, high = self._ground.sheet
        labels = self._labels()
        yield (
            f'<svg xmlns="http://www.w3.org/2000/svg" width="{wide:.1f}pt" height="{high:.1f}pt" '
            f'viewBox="0 0 {wide:.1f} {high:.1f}" font-family="Helvetica, Arial, sans-serif" '
            f'font-size="{SIZE}">'
        )
        yield from self._all_lines()
        for place in self._ground.places:
            yield from self._place(place)
        for it in labels:
            yield from _label(it)
        yield "</svg>"

    # Lines.

    def _route(self, line: GroundLine) -> tuple[Point, ...]:
        return self._routes.get(line.number, line.points)

    def _thick(self, line: GroundLine) -> float:
        least = LEAST_LIMIT if shade_of(line.mark) is BOTTLENECK else 0.0
        return max(least, self._ground.thick(line))

    def _all_lines(self) -> Iterator[str]:
        """Yield all lines, those that look alike together, from the legend's last entry to its
        first; then those that were changed or are in the bottleneck, each in a group of its own."""
        alike: dict[tuple[int, float], list[GroundLine]] = defaultdict(list)
        own = []
        for line in self._ground.lines:
            shade = shade_of(line.mark)
            if shade is BOTTLENECK or line.is_changed:
                own.append(line)
            else:
                alike[-SHADES.index(shade), self._thick(line)].append(line)
        for _, lines in sorted(alike.items()):
            yield from self._stroke(lines, "")
        for line in sorted(own, key=lambda it: shade_of(it.mark) is BOTTLENECK):
            yield from self._stroke([line], f' id="arc-{line.number}"')

    def _stroke(self, lines: Sequence[GroundLine], named: str) -> Iterator[str]:
        """Yield lines that look alike, with their arrows."""
        shade, thick = shade_of(lines[0].mark), self._thick(lines[0])
        ink = INKS[shade.ink]
        dashes = ' stroke-dasharray="4 2"' if shade.is_dashed else ""
        paths = "".join(_path(self._route(line)) for line in lines)
        yield (
            f'<g{named}><path d="{paths}" fill="none" stroke="{ink}" '
            f'stroke-width="{thick:.2f}"{dashes}/>'
        )
        arrows = "".join(self._arrow(line, thick) for line in lines)
        if arrows:
            colour = "#ffffff" if thick >= INSIDE else ink
            yield f'<path class="arrows" d="{arrows}" fill="{colour}"/>'
        yield "</g>"

    def _arrow(self, line: GroundLine, thick: float) -> str:
        """Return the outline of the arrow on a line, or nothing if that is too short, is closed, or
        leads both ways with no flow."""
        route = self._route(line)
        long = sum(math.dist(one, other) for one, other in zip(route, route[1:]))
        if long < SHORT or line.mark.way == STILL or shade_of(line.mark) is SHUT:
            return ""
        x, y = middle(route)
        (x0, y0), (x1, y1) = _around_middle(route)
        by = math.dist((x0, y0), (x1, y1)) or 1.0
        size = min(5.0, 0.4 * thick / PIXEL + 2.6) * PIXEL
        size *= WITHIN if thick >= INSIDE else 1.0
        size *= 1 if line.mark.way == THERE else -1
        right, down = (x1 - x0) / by * size, (y1 - y0) / by * size
        corners = (
            (x + right, y + down),
            (x - right - down / 1.6, y - down + right / 1.6),
            (x - right + down / 1.6, y - down - right / 1.6),
        )
        return _path(corners) + "Z"

    # Places.

    def _reach(self, place: GroundPlace) -> float:
        """Return how far a place reaches, which is 0 if it is not drawn."""
        is_told = place.is_limit or place.is_shut
        return END if place.is_end else max(self._plain, 2.0 if is_told else 0.0)

    def _place(self, place: GroundPlace) -> Iterator[str]:
        ink = INKS["unused" if place.is_shut else "limit" if place.is_limit else "ink"]
        fill = INKS["side"] if place.is_before else "#ffffff"
        oval = self._ovals.get(place.node)
        x, y = place.at
        named = f'id="node-{place.node}"'
        if oval:
            yield (
                f'<g {named}><ellipse cx="{x:.1f}" cy="{y:.1f}" rx="{oval.right:.1f}" '
                f'ry="{oval.down:.1f}" fill="{fill}" stroke="{ink}" '
                f'stroke-width="{2 if place.is_end or place.is_limit else 0.8}"/></g>'
            )
            return
        reach = self._reach(place)
        if not reach:
            return
        rim = f'fill="{fill}" stroke="{ink}" stroke-width="{1.4 if place.is_end else 0.7}"'
        if place.is_source:
            yield (
                f'<g {named}><rect x="{x - reach:.1f}" y="{y - reach:.1f}" width="{2 * reach:.1f}" '
                f'height="{2 * reach:.1f}" {rim}/><rect x="{x - 2.4:.1f}" y="{y:.1f}" width="4.8" '
                f'height="2.4" fill="{ink}"/></g>'
            )
            return
        yield f'<g {named}><circle cx="{x:.1f}" cy="{y:.1f}" r="{reach:.1f}" {rim}/>'
        if place.is_sink:
            yield f'<path class="share" d="{_pie(place.at, place.share)}" fill="{ink}"/>'
        yield "</g>"

    # Labels.

    def _labels(self) -> list[Put]:
        ground = self._ground
        ink = Ink()
        for line in ground.lines:
            shade = shade_of(line.mark)
            weight = LIMIT_COST if shade is BOTTLENECK else UNUSED if shade is IDLE else ORDINARY
            ink.add(f"arc-{line.number}", self._route(line), weight)
        solid = [
            self._ovals.get(place.node) or Box(*place.at, self._reach(place), self._reach(place))
            for place in ground.places
            if place.node in self._ovals or self._reach(place)
        ]
        labels = Labels(ground.sheet, solid, ink)
        labels.put.extend(
            Put(_place_wish(place, 0.0), self._ovals[place.node], _texts(place), ())
            for place in ground.places
            if place.node in self._ovals
        )
        for wish in sorted(self._wishes(), key=lambda it: it.rank):
            labels.take(wish)
        return labels.put

    def _wishes(self) -> Iterator[Wish]:
        """Yield the labels that a picture should have, of each rank the largest first. If there is
        room for the names of all places, none may be left out; where there is none for all sources
        and sinks, only those of the bottleneck may cover lines."""
        told, others = list[GroundLine](), list[GroundLine]()
        lines = sorted(
            self._ground.lines, key=lambda it: (shade_of(it.mark) is IDLE, -int(it.mark.width))
        )
        for line in lines:
            is_told = line.is_changed or shade_of(line.mark) is BOTTLENECK
            (told if is_told else others).append(line)
        yield from map(self._line_wish, (*told, *others[:MOST_TRIED]))
        places = [it for it in self._ground.places if it.node not in self._ovals]
        ends = sorted((it for it in places if it.is_end), key=lambda it: not it.is_limit)
        plain = [it for it in places if not it.is_end and self._reach(it)]
        most = most_labels(self._ground.sheet) - len(told)
        must, may_cover = len(places) <= most, len(ends) <= most
        for place in (*ends, *plain[:MOST_TRIED]):
            yield _place_wish(place, self._reach(place), must, may_cover)

    def _line_wish(self, line: GroundLine) -> Wish:
        shade, route = shade_of(line.mark), self._route(line)
        rank = 0 if line.is_changed else 1 if shade is BOTTLENECK else 4
        ink = INKS["limit" if shade is BOTTLENECK else "ink"]
        name = [Text(allowed(line.name), ink, rank < 4)] * bool(line.name)
        amounts = Text(short_amounts(self._desk, line.number), ink)
        reach = self._thick(line) / 2
        texts = (*name, amounts)
        must = rank < 4
        return Wish(f"arc-{line.number}", rank, must, texts, middle(route), reach, route, must)


def _around_middle(route: Sequence[Point]) -> tuple[Point, Point]:
    """Return the ends of the piece on which the middle of a route is."""
    left = sum(math.dist(one, other) for one, other in zip(route, route[1:])) / 2
    for one, other in zip(route, route[1:]):
        left -= math.dist(one, other)
        if left <= 0:
            return one, other
    return route[-2], route[-1]


def _texts(place: GroundPlace) -> tuple[Text, ...]:
    """Return the label of a place: its name, and what it gives, takes or lets through."""
    ink = INKS["unused" if place.is_shut else "ink"]
    name = Text(allowed(place.name), INKS["limit"] if place.is_limit else ink, place.is_end)
    return (
        name,
        *(Text(role.text, INKS["limit"] if role.is_limit else ink) for role in place.roles),
        *[Text("shut", ink)] * place.is_shut,
    )


def _place_wish(
    place: GroundPlace, reach: float, must: bool = False, may_cover: bool = True
) -> Wish:
    rank = 0 if place.is_shut else 1 if place.is_limit else 2 if place.is_end else 3
    may_cover = rank < 2 or rank == 2 and may_cover
    named = f"node-{place.node}"
    return Wish(named, rank, must or rank < 3, _texts(place), place.at, reach, may_cover=may_cover)


def _pie(at: Point, share: float) -> str:
    """Return the outline of a part of a circle, from its top on."""
    x, y = at
    by = END / 9
    if share >= 1:
        disc = 5.5 * by
        return (
            f"M{x:.1f} {y - disc:.1f}A{disc:.1f} {disc:.1f} 0 1 1 {x:.1f} {y + disc:.1f}"
            f"A{disc:.1f} {disc:.1f} 0 1 1 {x:.1f} {y - disc:.1f}Z"
        )
    reach, turn = 6.5 * by, 2 * math.pi * min(share, 0.96)
    end = x + reach * math.sin(turn), y - reach * math.cos(turn)
    return (
        f"M{x:.1f} {y:.1f}V{y - reach:.1f}A{reach:.1f} {reach:.1f} 0 {int(turn > math.pi)} 1 "
        f"{end[0]:.1f} {end[1]:.1f}Z"
    ) * (share > 0)


def _label(it: Put) -> Iterator[str]:
    """Yield a label with the thin line that leads to it."""
    wish, box, texts, leader = it
    yield f'<g id="label-{wish.key}">'
    if leader:
        yield f'<path d="{_path(leader)}" stroke="{texts[0].ink}" stroke-width="0.4" fill="none"/>'
    top = box.y - len(texts) * SIZE * LINE / 2
    for at, text in enumerate(texts):
        weight = ' font-weight="bold"' if text.is_bold else ""
        yield (
            f'<text x="{box.x:.1f}" y="{top + (at + 0.83) * SIZE * LINE:.1f}" fill="{text.ink}" '
            f'font-size="{SIZE}"{weight} text-anchor="middle" paint-order="stroke" stroke="#fff" '
            f'stroke-width="{HALO}" stroke-linejoin="round">{escape(text.text)}</text>'
        )
    yield "</g>"
