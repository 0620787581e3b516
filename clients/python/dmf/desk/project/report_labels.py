"""Where the labels of a report's picture lie: at most as many as can be read on a sheet of A4, none
on a place or on another label, and none on a line if there is other room. Lengths are in points."""

from __future__ import annotations

import math
from collections import defaultdict
from collections.abc import Iterable, Iterator, Sequence
from dataclasses import dataclass
from typing import NamedTuple

from ..pictures.letters import width

Point = tuple[float, float]
# The most labels, the size of their letters on paper, and the height of a line at size 1.
MOST_LABELS, SIZE, LINE = 30, 8.5, 1.2
# The room for a label on a small picture, in square points.
ROOM = 3_000.0
# How far a label is from a line or a place, and the parts of a line beside which it may lie.
APART, ALONG = 2.0, (0.5, 0.35, 0.65, 0.2, 0.8)
# The parts of a line to which a thin line may lead.
LED_TO = tuple(at / 20 for at in range(3, 18))
# How far away a label may lie, in heights of a line of it, and in how many directions; and how far
# away it is at least, in points, to have a thin line.
FURTHEST, WAYS, LED = 22, 24, 6.0
# How far a label with a thin line to it may be before one on lines is better; and what a point of a
# line below a label costs, of an ordinary one, one without flow and one of the bottleneck, and a
# point of distance.
FAR, ORDINARY, UNUSED, LIMIT, AWAY = 90.0, 1.0, 0.2, 6.0, 1.0
# How close the points of a line are that are known, and the side of a field in which they are; how
# far a label is from all lines, how far away other lines are looked for, and how much further away
# than the line of the label they must be.
STEP, FIELD, CLEAR, AROUND, FURTHER = 2.0, 6.0, 0.5, 12.0, 5.0


class Box(NamedTuple):
    """A part of the picture: its middle, and how far it reaches."""

    x: float
    y: float
    right: float
    down: float

    def meets(self, other: Box) -> bool:
        """Return True if the boxes have a point in common."""
        return (
            abs(self.x - other.x) < self.right + other.right
            and abs(self.y - other.y) < self.down + other.down
        )

    def away(self, point: Point) -> float:
        """Return the distance of a point, which is 0 inside."""
        return math.hypot(
            max(0.0, abs(point[0] - self.x) - self.right),
            max(0.0, abs(point[1] - self.y) - self.down),
        )

    def nearest(self, point: Point) -> Point:
        """Return the point of the box that is nearest to another."""
        return (
            min(max(point[0], self.x - self.right), self.x + self.right),
            min(max(point[1], self.y - self.down), self.y + self.down),
        )


class Text(NamedTuple):
    """A line of a label."""

    text: str
    ink: str
    is_bold: bool = False

    @property
    def wide(self) -> float:
        return width(self.text, self.is_bold) * SIZE


@dataclass(frozen=True)
class Wish:
    """A label that a picture should have. Less `rank` is more important, and what must be named may
    lie further away, at the end of a thin line, or on lines if it may cover them. `origin` is the
    middle of its place or its line, `reach` how far its place reaches, and `line` has the ends of
    its line, if it is that of one."""

    key: str
    rank: int
    must: bool
    texts: tuple[Text, ...]
    origin: Point
    reach: float
    line: tuple[Point, ...] = ()
    may_cover: bool = False

    def size(self, count: int) -> tuple[float, float]:
        """Return half the width and half the height of its first lines."""
        return max(it.wide for it in self.texts[:count]) / 2, count * SIZE * LINE / 2

    def begin(self, box: Box) -> Point:
        """Return where a thin line to a box begins: in the middle of its place, or at the nearest
        point of its line."""
        points = [_piece(self.line, part)[0] for part in LED_TO] if self.line else [self.origin]
        return min(points, key=box.away)

    def near(self, count: int) -> Iterator[Box]:
        """Yield the boxes beside its place or its line, the best first."""
        right, down = self.size(count)
        if self.line:
            yield from self._beside(right, down)
            return
        by = self.reach + APART
        slant = by * 0.75
        x, y = self.origin
        for across, up in ((0, -1), (0, 1), (1, 0), (-1, 0)):
            yield Box(x + across * (by + right), y + up * (by + down), right, down)
        for across, up in ((1, -1), (1, 1), (-1, -1), (-1, 1)):
            yield Box(x + across * (slant + right), y + up * (slant + down), right, down)

    def _beside(self, right: float, down: float) -> Iterator[Box]:
        """Yield the boxes that touch its line, on both sides of it."""
        for part in ALONG:
            (x, y), (x0, y0), (x1, y1) = _piece(self.line, part)
            long = math.dist((x0, y0), (x1, y1)) or 1.0
            across = (y0 - y1) / long, (x1 - x0) / long
            out = abs(across[0]) * right + abs(across[1]) * down + APART + self.reach
            for side in (-out, out) if across[1] > 0 else (out, -out):
                yield Box(x + side * across[0], y + side * across[1], right, down)

    def far(self, count: int) -> Iterator[Box]:
        """Yield boxes further away, the nearest first."""
        right, down = self.size(count)
        x, y = self.origin
        for ring in range(1, FURTHEST):
            for way in range(WAYS):
                turn = 2 * math.pi * way / WAYS
                reach = ring * SIZE * LINE * 0.75
                yield Box(
                    x + math.cos(turn) * (right + reach),
                    y + math.sin(turn) * (down + reach),
                    right,
                    down,
                )


def _piece(line: Sequence[Point], part: float) -> tuple[Point, Point, Point]:
    """Return the point after this part of a line, and the ends of the piece on which it lies."""
    lengths = [math.dist(one, other) for one, other in zip(line, line[1:])]
    left = part * sum(lengths)
    for place, long in enumerate(lengths):
        if left <= long or place == len(lengths) - 1:
            (x0, y0), (x1, y1) = line[place], line[place + 1]
            by = left / (long or 1.0)
            return (x0 + by * (x1 - x0), y0 + by * (y1 - y0)), line[place], line[place + 1]
        left -= long
    raise ValueError("a line has two ends at least")


def middle(line: Sequence[Point]) -> Point:
    """Return the point in the middle of a line."""
    return _piece(line, 0.5)[0]


class Ink:
    """Points of all lines of a picture, by the fields of a grid, and what they cost there."""

    def __init__(self) -> None:
        self._fields: dict[tuple[int, int], list[tuple[str, float, float]]] = defaultdict(list)
        self._costs: dict[tuple[int, int], float] = defaultdict(float)

    def add(self, key: str, line: Sequence[Point], weight: float) -> None:
        """Take in a line, and what a point of it costs below a label."""
        for (x0, y0), (x1, y1) in zip(line, line[1:]):
            count = int(math.dist((x0, y0), (x1, y1)) / STEP) + 1
            for at in range(count + 1):
                x, y = x0 + at / count * (x1 - x0), y0 + at / count * (y1 - y0)
                field = int(x // FIELD), int(y // FIELD)
                self._fields[field].append((key, x, y))
                self._costs[field] += weight * STEP

    def near(self, box: Box, by: float) -> Iterator[tuple[str, Point]]:
        """Yield the points at most this far from a box, sideways and up."""
        right, down = box.right + by, box.down + by
        for field in _fields_of(box, by):
            for key, x, y in self._fields.get(field, ()):
                if abs(x - box.x) <= right and abs(y - box.y) <= down:
                    yield key, (x, y)

    def is_clear(self, box: Box) -> bool:
        """Return True if no line is below a box."""
        return next(self.near(box, CLEAR), None) is None

    def cost(self, box: Box) -> float:
        """Return about what the lines below a box cost."""
        return sum(self._costs.get(field, 0.0) for field in _fields_of(box, 0.0))

    def is_nearest(self, box: Box, wish: Wish) -> bool:
        """Return True if each other line is clearly further from a box than that of the label: else
        it might be read as that of the other."""
        near = [(key == wish.key, box.away(point)) for key, point in self.near(box, AROUND)]
        own = min((away for is_own, away in near if is_own), default=AROUND)
        return all(is_own or away >= own + FURTHER for is_own, away in near)

    def is_crossed(self, point: Point, key: str) -> bool:
        """Return True if a line other than this one leads over a point."""
        spot = Box(*point, 0.0, 0.0)
        return any(other != key for other, _ in self.near(spot, STEP / 2 + CLEAR))


def _fields_of(box: Box, by: float) -> Iterator[tuple[int, int]]:
    """Yield the fields of the grid that a box meets if it is larger by this on each side."""
    left, right = (int((box.x + side * (box.right + by)) // FIELD) for side in (-1, 1))
    top, bottom = (int((box.y + side * (box.down + by)) // FIELD) for side in (-1, 1))
    for column in range(left, right + 1):
        for row in range(top, bottom + 1):
            yield column, row


class Put(NamedTuple):
    """A label where it lies, with its first lines, and the thin line that leads to it, if one
    does."""

    wish: Wish
    box: Box
    texts: tuple[Text, ...]
    leader: tuple[Point, ...]


def most_labels(size: Point) -> int:
    """Return how many labels a picture of this size has at most."""
    return min(MOST_LABELS, int(size[0] * size[1] / ROOM))


class Labels:
    """The labels that have found their places in a picture of this size."""

    def __init__(self, size: Point, places: Iterable[Box], ink: Ink) -> None:
        self._size, self._ink = size, ink
        self._most = most_labels(size)
        self._solid = [*places]
        self._taken: list[Box] = []
        self.put: list[Put] = []

    def take(self, wish: Wish) -> None:
        """Put a label where it can be read, or leave it out."""
        if len(self.put) >= self._most or not wish.texts:
            return
        counts = [*range(len(wish.texts), 0, -1)]
        found = next(filter(None, (self._near(wish, count) for count in counts)), None)
        if not found and wish.must:
            found = self._best(wish, counts[0]) or self._best(wish, 1)
        if found:
            self.put.append(found)
            self._taken.append(found.box)

    def _is_free(self, box: Box) -> bool:
        wide, high = self._size
        return (
            box.right <= box.x <= wide - box.right
            and box.down <= box.y <= high - box.down
            and not any(map(box.meets, self._taken))
            and not any(map(box.meets, self._solid))
        )

    def _near(self, wish: Wish, count: int) -> Put | None:
        """Return the label beside its place or line, where no line is below it and it is not read
        as that of another."""
        for box in wish.near(count):
            if self._is_free(box) and self._ink.is_clear(box):
                if not wish.line or self._ink.is_nearest(box, wish):
                    return Put(wish, box, wish.texts[:count], ())
        return None

    def _best(self, wish: Wish, count: int) -> Put | None:
        """Return the label further away, at the end of a thin line; or on lines if that is too far
        and the label may cover them."""
        free = [box for box in (*wish.near(count), *wish.far(count)) if self._is_free(box)]
        free.sort(key=lambda it: it.away(wish.origin))
        clear = [
            it
            for it in free
            if it.away(wish.origin) <= FAR and self._ink.is_clear(it) and self._belongs(wish, it)
        ]
        ways = ((it, over) for over in (False, True) for it in clear)
        box = next((it for it, over in ways if self._leads(wish, it, over)), None)
        if box is None and free and wish.may_cover:
            box = min(free, key=lambda it: self._ink.cost(it) + AWAY * it.away(wish.origin))
        if box is None:
            return None
        return Put(wish, box, wish.texts[:count], self._leader(wish, box))

    def _belongs(self, wish: Wish, box: Box) -> bool:
        """Return True if a label is not read as that of another line: a thin line leads to it, or
        its own line is nearest."""
        is_led = box.away(wish.begin(box)) >= wish.reach + LED
        return is_led or not wish.line or self._ink.is_nearest(box, wish)

    def _leads(self, wish: Wish, box: Box, over_lines: bool) -> bool:
        """Return True if the line to a box crosses no other label or place, nor another line unless
        it may."""
        begin = wish.begin(box)
        end = box.nearest(begin)
        count = int(math.dist(begin, end) / STEP) + 1
        points = [
            (
                begin[0] + at / count * (end[0] - begin[0]),
                begin[1] + at / count * (end[1] - begin[1]),
            )
            for at in range(count + 1)
        ]
        others = [*self._taken, *(it for it in self._solid if it.away(begin))]
        return all(
            all(other.away(point) > 1 for other in others)
            and (over_lines or not self._ink.is_crossed(point, wish.key))
            for point in points
        )

    def _leader(self, wish: Wish, box: Box) -> tuple[Point, ...]:
        origin = wish.begin(box)
        end = box.nearest(origin)
        long = math.dist(origin, end)
        if long < wish.reach + LED:
            return ()
        by = wish.reach / long if not wish.line else 0.0
        begin = tuple(one + by * (other - one) for one, other in zip(origin, end))
        leader = ((begin[0], begin[1]), end)
        self._ink.add(f"leader of {wish.key}", leader, ORDINARY)
        return leader
