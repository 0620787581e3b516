"""Where the places of a picture lie.

A place stays where it was put, whatever is drawn beside it: Graphviz puts the first picture as it
does best, and later one new places near their neighbours. A map may say where they lie, or a person
may move them."""

from __future__ import annotations

import json
import math
import re
from collections import Counter, defaultdict, deque
from collections.abc import Collection, Iterable, Iterator, Mapping, Sequence
from dataclasses import dataclass, field
from typing import NamedTuple

from ...text.drawing import graphviz
from ..steps import DeskFault

# The approximate size of a place, in points, and the number of spots that are tried around the best
# one; and how far apart they are, in heights of a place, first and where all of these are taken.
WIDE, HIGH, MOST_SPOTS = 120.0, 50.0, 400
FARTHER = 0.5, 2.0, 8.0
# The most places that are drawn in layers of any shape; the greatest ratio of the layers' length to
# their height, or the reverse, with more places; the most places for which layers are tried, which
# takes long; and the forces that spread out all others.
MOST_LAYERED, MOST_LONG, MOST_TRIED = 40, 2.3, 400
# The most layers, and the most places in one of them, of a network that any window shows in layers,
# as it does a roster's people, their days and the shifts.
FEW_LAYERS, MOST_BESIDE = 4, 25
FORCES = "K=1; repulsiveforce=1.4; smoothing=triangle; overlap=true"
# The ratio of a window's width to its height, if it is not known; the most by which a picture is
# stretched to it; up to which ratio of their forms a picture fits a window as it is; and up to
# which form of a window places may lie from top to bottom.
WINDOW, MOST_STRETCHED, FITS, TALL = 1.4, 2.2, 1.25, 1.2
# The distance between parts of the network that are not connected, in points.
APART = 200.0


class NoPicture(DeskFault):
    """The reason why a picture cannot be drawn."""


class Spot(NamedTuple):
    """The middle of a place in points; `y` grows upwards."""

    x: float
    y: float


# A line between the middles of two places.
Line = tuple[Spot, Spot]
# The position of a place in a drawing of Graphviz.
_DRAWN = re.compile(
    r'<g id="node(?:-|&#45;)(\d+)".*?<ellipse [^>]* cx="([-0-9.]+)" cy="([-0-9.]+)"', re.DOTALL
)
# An arc by its ends, and by its rank among those with the same ends.
Way = tuple[int, int, int]


class Route(NamedTuple):
    """The curve of an arc and the position of its label, in the notation of Graphviz."""

    curve: str
    label: str


@dataclass
class Places:
    """The spots of places, by their nodes, and the routes between them that were drawn so far. A
    place that was made has its spot by its name, since its node may be another place's in another
    state: `called` has the names of those that were made, by their nodes, and `apart` the spots of
    those that are not there now. `moved` has where those lie that were moved by hand, also by their
    names if they were made; and `routed` the spots between which the routes were drawn. `form` is
    how many times as wide as high the window is in which places are put first, `sources` has those
    that lie to the left then, and `number` distinguishes a layout from others."""

    spots: dict[int, Spot] = field(default_factory=dict)
    routes: dict[Way, Route] = field(default_factory=dict)
    called: dict[int, str] = field(default_factory=dict)
    apart: dict[str, Spot] = field(default_factory=dict)
    moved: Mapping[int | str, Spot] = field(default_factory=dict)
    routed: Mapping[int, Spot] = field(default_factory=dict)
    form: float = WINDOW
    sources: frozenset[int] = frozenset()
    number: int = 0

    @property
    def seen(self) -> Mapping[int, Spot]:
        """Return where places are seen, by their nodes."""
        if not self.moved:
            return self.spots
        nodes: dict[int | str, int] = {name: node for node, name in self.called.items()}
        moved = ((nodes.get(it, it), spot) for it, spot in self.moved.items())
        there = {it: spot for it, spot in moved if isinstance(it, int) and it in self.spots}
        return {**self.spots, **there}

    def route(self, way: Way) -> Route | None:
        """Return the route of an arc, if it was drawn between the spots that its ends have now."""
        if way not in self.routes:
            return None
        seen = self.seen
        is_drawn = all(seen[node] == self.routed.get(node) for node in way[:2])
        return self.routes[way] if is_drawn else None

    def take(self, other: Places) -> None:
        """Take the spots and routes of another layout of the same places."""
        self.spots, self.routes, self.routed = other.spots, other.routes, other.routed
        self.called, self.apart = other.called, other.apart
        self.form, self.number = other.form, other.number

    def call(self, made: Mapping[int, str]) -> None:
        """Take as the places that were made these, by their nodes."""
        for node, name in self.called.items():
            if made.get(node) != name and node in self.spots:
                self.apart[name] = self.spots.pop(node)
        for node, name in made.items():
            if name in self.apart:
                self.spots[node] = self.apart.pop(name)
        self.called.clear()
        self.called.update(made)

    def put(self, nodes: Iterable[int], ways: Iterable[Way], text: str) -> str:
        """Give each of these nodes a spot if it has none. `text` draws them for Graphviz, without
        spots. Return what Graphviz drew if that has the nodes at these spots, or else an empty
        text. Raises `NoPicture`."""
        known, new = _parted(nodes, self.spots)
        if new and not known:
            return self._put_apart(new, list(ways), text)
        if new:
            self.put_near(_rough(text, {node: self.seen[node] for node in known}, new))
        return ""

    def _put_apart(self, new: list[int], ways: list[Way], text: str) -> str:
        """Put places, none of which is known yet, as Graphviz does best, beside those that are
        known."""
        layers = _layered(text, self.form) if len(new) <= MOST_TRIED else None
        has_few = layers is not None and _has_few_layers(layers[0].spots.values())
        if layers and (
            has_few or len(new) <= MOST_LAYERED or _misfit(layers[0], self.form) <= MOST_LONG
        ):
            found, drawn = layers
        else:
            found, drawn = Places(spread_out(text, ways, self.sources, self.form)), ""
        # What was spread out is longer again where places that overlapped were moved apart.
        if (misfit := _misfit(found, self.form)) > FITS:
            most = misfit if has_few else MOST_STRETCHED
            found, drawn = Places(_stretched(found.spots, self.form, most)), ""
        right = max((spot.x for spot in self.spots.values()), default=-APART)
        left = min((spot.x for spot in found.spots.values()), default=0.0)
        by = right + APART - left if self.spots else 0.0
        self.spots.update({node: Spot(spot.x + by, spot.y) for node, spot in found.spots.items()})
        if by:
            return ""
        drawn_ways = set(ways)
        self.routes = {way: route for way, route in found.routes.items() if way in drawn_ways}
        self.routed = found.spots
        return drawn

    def put_near(self, rough: Mapping[int, Spot]) -> None:
        """Put each of these places near the spot given for it, where no other place lies."""
        taken = _FreeSpots(self.seen.values())
        for node, spot in rough.items():
            self.spots[node] = taken.free(spot)

    def put_among(self, nodes: Sequence[int], ways: Iterable[tuple[int, int]]) -> None:
        """Put each of these nodes that has no spot among its neighbours by these ways, or, if they
        have none, in the middle of all."""
        beside: dict[int, list[int]] = defaultdict(list)
        for tail, head in ways:
            beside[tail].append(head)
            beside[head].append(tail)
        while left := [node for node in nodes if node not in self.spots]:
            seen = self.seen
            near = {node: [seen[one] for one in beside[node] if one in seen] for node in left}
            rough = {node: _middle(found) for node, found in near.items() if found}
            self.put_near(rough or dict.fromkeys(left, _middle([*seen.values()])))

    def put_beside(self, node: int, others: Sequence[Spot], lines: Iterable[Line]) -> None:
        """Put a place beside others, to the right of them and a little below, where no other place
        lies and, if there is such a spot, none of these lines."""
        x, y = _middle(others)
        points = [point for line in lines for point in _points(*line)]
        self.spots[node] = _FreeSpots(self.seen.values()).free(Spot(x + WIDE, y - HIGH), points)


def _middle(spots: Sequence[Spot]) -> Spot:
    x, y = (sum(spot[axis] for spot in spots) / len(spots) for axis in (0, 1))
    return Spot(x, y)


def _points(begin: Spot, end: Spot) -> Iterator[Spot]:
    """Yield points on a line, half the height of a place apart."""
    count = int(math.dist(begin, end) / (HIGH / 2)) + 1
    for at in range(count + 1):
        by = at / count
        yield Spot(begin.x + by * (end.x - begin.x), begin.y + by * (end.y - begin.y))


class _FreeSpots:
    """The spots that places cover, by the fields of a grid."""

    def __init__(self, spots: Iterable[Spot]) -> None:
        self._fields: dict[tuple[int, int], list[Spot]] = {}
        for spot in spots:
            self._take(spot)

    def _take(self, spot: Spot) -> None:
        self._fields.setdefault((int(spot.x // WIDE), int(spot.y // HIGH)), []).append(spot)

    def free(self, wanted: Spot, points: Sequence[Spot] = ()) -> Spot:
        """Take and return the nearest spot found at which a place overlaps no other and, if there
        is one, none of these points."""
        found = ([it for it in _around(wanted, by) if self._is_free(it)] for by in FARTHER)
        no_spots: list[Spot] = []
        spots = next(filter(None, found), no_spots)
        clear = (spot for spot in spots if not any(_covers(spot, it) for it in points))
        spot = next(clear, spots[0] if spots else wanted)
        self._take(spot)
        return spot

    def _is_free(self, spot: Spot) -> bool:
        column, row = int(spot.x // WIDE), int(spot.y // HIGH)
        near = (
            one
            for x in (-1, 0, 1)
            for y in (-1, 0, 1)
            for one in self._fields.get((column + x, row + y), ())
        )
        return all(abs(one.x - spot.x) >= WIDE or abs(one.y - spot.y) >= HIGH for one in near)


def _covers(spot: Spot, point: Spot) -> bool:
    """Return True if a place at a spot covers a point."""
    return abs(spot.x - point.x) < WIDE / 2 and abs(spot.y - point.y) < HIGH / 2


def _around(spot: Spot, by: float) -> Iterator[Spot]:
    """Yield spots on a spiral, from its middle outwards, this many times as far apart as places are
    high."""
    for step in range(MOST_SPOTS):
        turn, away = step * 2.4, math.sqrt(step) * HIGH * by
        yield Spot(spot.x + 1.6 * away * math.cos(turn), spot.y + away * math.sin(turn))


def _parted(nodes: Iterable[int], spots: Mapping[int, Spot]) -> tuple[list[int], list[int]]:
    listed = list(nodes)
    return [node for node in listed if node in spots], [
        node for node in listed if node not in spots
    ]


def _rough(text: str, known: Mapping[int, Spot], new: list[int]) -> dict[int, Spot]:
    """Return where the new places would lie by their neighbours if the known ones stay where they
    are."""
    pins = "".join(f'  {node} [pos="{spot.x:.2f},{spot.y:.2f}!"]\n' for node, spot in known.items())
    settings = "  overlap=true; notranslate=true; inputscale=72; splines=false; edge [len=1.8]\n"
    found, _ = laid_out("neato", text.rstrip().removesuffix("}") + settings + pins + "}\n")
    return {node: found.spots[node] for node in new}


def _form(spots: Iterable[Spot]) -> float:
    """Return how many times as long as high a picture is."""
    listed = list(spots)
    wide, high = (
        max(side) - min(side) for side in ([it.x for it in listed], [it.y for it in listed])
    )
    return (wide + WIDE) / (high + HIGH)


def _misfit(places: Places, form: float) -> float:
    """Return by what factor places are too long or too high for a window of this form."""
    by = _form(places.spots.values()) / form
    return max(by, 1 / by)


def _layered(text: str, form: float) -> tuple[Places, str]:
    """Return places in layers, and the drawing: from left to right or, if they are too long for a
    window that is about as high as wide or higher, from top to bottom."""
    found = _drawn_layers(text)
    if form < TALL and _misfit(found[0], form) > MOST_STRETCHED:
        downwards = _drawn_layers(text.replace("rankdir=LR", "rankdir=TB", 1))
        found = min(found, downwards, key=lambda it: _misfit(it[0], form))
    return found


def _drawn_layers(text: str) -> tuple[Places, str]:
    found, drawn = laid_out("dot", text, "-Tsvg")
    # A drawing tells them in hundredths, and a layout in five digits.
    found.spots = {int(node): Spot(float(x), -float(y)) for node, x, y in _DRAWN.findall(drawn)}
    return found, drawn


def _has_few_layers(spots: Iterable[Spot]) -> bool:
    """Return True if these places lie in a few columns or rows, with not too many in one."""
    listed = list(spots)
    layers = [Counter(round(spot[axis]) for spot in listed) for axis in (0, 1)]
    return any(
        len(counts) <= FEW_LAYERS and max(counts.values(), default=0) <= MOST_BESIDE
        for counts in layers
    )


def _stretched(spots: Mapping[int, Spot], form: float, most: float) -> dict[int, Spot]:
    """Return spots at most this many times further apart, upwards or to the right, towards the form
    of a window."""
    by = _form(spots.values()) / form
    right, up = (min(most, max(1.0, factor)) for factor in (1 / by, by))
    return {
        node: Spot(round(spot.x * right, 2), round(spot.y * up, 2)) for node, spot in spots.items()
    }


def spread_out(
    text: str, ways: Sequence[Way], sources: frozenset[int] = frozenset(), form: float = WINDOW
) -> dict[int, Spot]:
    """Return where places lie that attract their neighbours, further to the right the more arcs
    they are away from the sources, in the form of a window. Layers of as many would be a strip."""
    begun = text.rstrip().removesuffix("}") + f"  notranslate=true; splines=false; {FORCES}\n"
    spots = laid_out("sfdp", begun + "}\n")[0].spots
    away = _arcs_away(ways, sources & spots.keys())
    middle = sum(away.values()) / (len(away) or 1)
    ahead = (
        sum(((by - middle) * complex(*spots[node]) for node, by in away.items()), 0j)
        if any(by != middle for by in away.values())
        # Most arcs lead from left to right.
        else sum((complex(*spots[head]) - complex(*spots[tail]) for tail, head, _ in ways), 0j)
    )
    turn = ahead.conjugate() / (abs(ahead) or 1.0)
    turned = {
        node: Spot((complex(*spot) * turn).real, (complex(*spot) * turn).imag)
        for node, spot in spots.items()
    }
    by = min(MOST_STRETCHED, max(1 / MOST_STRETCHED, _form(turned.values()) / form))
    pins = "".join(
        f'  {node} [pos="{spot.x:.2f},{spot.y * by:.2f}"]\n' for node, spot in turned.items()
    )
    # Move places apart that overlap.
    settings = '  overlap=prism; sep="+14"; notranslate=true; inputscale=72; splines=false\n'
    apart = laid_out("neato", text.rstrip().removesuffix("}") + settings + pins + "}\n", "-n")[0]
    return {node: Spot(round(it.x, 2), round(it.y, 2)) for node, it in apart.spots.items()}


def _arcs_away(ways: Iterable[Way], sources: Collection[int]) -> dict[int, int]:
    """Return how many arcs places are away from the sources, in whichever way the arcs lead."""
    beside: dict[int, list[int]] = defaultdict(list)
    for tail, head, _ in ways:
        beside[tail].append(head)
        beside[head].append(tail)
    found = dict.fromkeys(sources, 0)
    left = deque(sources)
    while left:
        node = left.popleft()
        for other in beside[node]:
            if other not in found:
                found[other] = found[node] + 1
                left.append(other)
    return found


def laid_out(engine: str, text: str, *words: str) -> tuple[Places, str]:
    """Run an engine of Graphviz, and return the spots and routes that it finds, and what else it
    writes for these words. In the text nodes are numbers, and the `class` of an arc is its way."""
    made = run(text, engine, "-Tjson0", *words)
    told, end = json.JSONDecoder().raw_decode(made)
    # Graphviz names nodes by their place in this list.
    nodes = [int(one["name"]) for one in told.get("objects", ())]
    spots = {
        node: Spot(*map(float, one["pos"].split(",")))
        for node, one in zip(nodes, told.get("objects", ()))
    }
    return (
        Places(
            spots,
            {
                _way(one): Route(one.get("pos", ""), one.get("lp", ""))
                for one in told.get("edges", ())
            },
        ),
        made[end:].lstrip(),
    )


def _way(edge: Mapping[str, str]) -> Way:
    tail, head, rank = map(int, edge["class"].split())
    return tail, head, rank


def run(text: str, engine: str, *words: str) -> str:
    """Return the output of an engine of Graphviz for a text. Raises `NoPicture`."""
    try:
        return graphviz(text.encode(), engine, *words).decode()
    except FileNotFoundError:
        raise NoPicture(
            "Graphviz, which draws it, is not installed. On Debian and Ubuntu: apt install graphviz"
        ) from None
    except OSError as error:
        raise NoPicture(f"Graphviz did not draw it: {error.strerror}") from None
    except RuntimeError as error:
        raise NoPicture(str(error)) from None
