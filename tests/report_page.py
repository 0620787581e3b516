"""What the tests of reports read of one: its tables, its headings and its pictures."""

from __future__ import annotations

import base64
import itertools
from collections.abc import Iterator
from html.parser import HTMLParser
from xml.etree import ElementTree


class Page(HTMLParser):
    """What a page has: the cells of each row of its tables, its headings, what it takes from
    elsewhere, and its pictures."""

    def __init__(self, text: str) -> None:
        super().__init__()
        self.rows: list[list[str]] = []
        self.headings: list[str] = []
        self.taken: list[str] = []
        self.text, self.tags = "", set[str]()
        self._into: list[str] | None = None
        self.feed(text)
        self.pictures = [
            base64.b64decode(it.partition(",")[2]).decode()
            for it in self.taken
            if it.startswith("data:image/svg+xml;base64,")
        ]

    def handle_starttag(self, tag: str, attrs: list[tuple[str, str | None]]) -> None:
        self.tags.add(tag)
        self.taken += [
            value or ""
            for name, value in attrs
            if name in ("src", "href", "srcset", "action", "data")
        ]
        if tag == "tr":
            self.rows.append([])
        if tag in ("td", "th", "h2"):
            self._into = self.headings if tag == "h2" else self.rows[-1]
            self._into.append("")

    def handle_endtag(self, tag: str) -> None:
        if tag in ("td", "th", "h2"):
            self._into = None

    def handle_data(self, data: str) -> None:
        self.text += data
        if self._into is not None:
            self._into[-1] += data


SVG = "{http://www.w3.org/2000/svg}"
TEXT = f"{SVG}text"
Point = tuple[float, float]
LIMIT = "#c8430b"


def named_in(picture: str) -> set[str]:
    """The texts of a picture."""
    return {it.text or "" for it in ElementTree.fromstring(picture).iter(f"{SVG}text")}


def lines_of(path: str) -> Iterator[list[Point]]:
    """The lines of a path, each by points close to each other."""
    for line in path.split("M")[1:]:
        ends = [tuple(map(float, it.split())) for it in line.split("L")]
        yield [
            (x0 + at / 40 * (x1 - x0), y0 + at / 40 * (y1 - y0))
            for (x0, y0), (x1, y1) in zip(ends, ends[1:])
            for at in range(41)
        ]


class Picture:
    """What a picture of a report has: its size, where each place lies that is drawn and how far it
    reaches, the points of each line, which arcs and places are orange, and its labels by what they
    are of, each with the middle, half the width and half the height of its letters. A letter is
    taken as half as wide as high."""

    def __init__(self, text: str) -> None:
        root = ElementTree.fromstring(text)
        _, _, self.width, self.height = map(float, (root.get("viewBox") or "").split())
        self.places: dict[str, tuple[Point, float, float]] = {}
        self.lines: list[list[Point]] = []
        self.limit: set[str] = set()
        self.labels: dict[str, list[tuple[str, float, Point, float]]] = {}
        for group in root.iter(f"{SVG}g"):
            name = group.get("id") or ""
            if name.startswith("label-"):
                self.labels[name.removeprefix("label-")] = [*map(self._letters, group.iter(TEXT))]
                continue
            if any(it.get("stroke") == LIMIT for it in group):
                self.limit.add(name)
            path = group.find(f"{SVG}path")
            if name.startswith("node-"):
                self.places[name] = self._place(group)
            elif path is not None:
                self.lines += lines_of(path.get("d") or "")

    @staticmethod
    def _letters(text: ElementTree.Element) -> tuple[str, float, Point, float]:
        size, x, y = (float(text.get(name) or 0) for name in ("font-size", "x", "y"))
        told = text.text or ""
        return told, size, (x, y - 0.35 * size), len(told) * size / 4

    @staticmethod
    def _place(group: ElementTree.Element) -> tuple[Point, float, float]:
        shape = group[0]
        number = {name: float(it) for name, it in shape.items() if name not in ("fill", "stroke")}
        if shape.tag == f"{SVG}rect":
            right, down = number["width"] / 2, number["height"] / 2
            return (number["x"] + right, number["y"] + down), right, down
        reach = number.get("r", 0.0)
        at = number["cx"], number["cy"]
        return at, number.get("rx", reach), number.get("ry", reach)


def judge_labels(text: str) -> Picture:
    """Each arc and each place of the bottleneck, which is orange, has a label; no line of an arc
    crosses the letters of any label, no label lies on another or on a place, except one in its own
    oval, and none is cut off."""
    picture = Picture(text)
    assert picture.limit <= picture.labels.keys(), picture.limit - picture.labels.keys()
    judge_boxes(picture)
    for name, texts in picture.labels.items():
        own = picture.places.get(name)
        for told, size, (x, y), half in texts:
            if own and abs(x - own[0][0]) < 1 and abs(y - own[0][1]) < own[2]:
                continue
            for line in picture.lines:
                crossing = [
                    it for it in line if abs(it[0] - x) < half and abs(it[1] - y) < 0.35 * size
                ]
                assert not crossing, (told, crossing[0])
    return picture


def judge_boxes(picture: Picture) -> None:
    """No label lies on another, or on a place that is not its own, and none is cut off."""
    letters = [(name, *it) for name, texts in picture.labels.items() for it in texts]
    for _, _, size, (x, y), half in letters:
        assert half <= x <= picture.width - half
        assert size / 2 <= y <= picture.height - size / 2
    for (_, one, size, (x, y), half), (_, other, *_, at, wide) in itertools.combinations(
        letters, 2
    ):
        assert abs(x - at[0]) > half + wide or abs(y - at[1]) > 0.7 * size, (one, other)
    for name, told, size, (x, y), half in letters:
        for place, ((right, down), wide, high) in picture.places.items():
            apart = abs(x - right) > half + wide or abs(y - down) > 0.35 * size + high
            assert apart or (place == name and wide > half), (told, place)


def limits(page: Page) -> list[list[list[str]]]:
    """The rows of each table of a limit."""
    found: list[list[list[str]]] = []
    for row in page.rows:
        if row[:1] == ["limit"]:
            found.append([])
        elif found and len(row) == 2:
            found[-1].append(row)
    return found


def rows_below(page: Page, title: str) -> list[list[str]]:
    """The rows of the table with this first title."""
    after = itertools.dropwhile(lambda row: row[0] != title, page.rows)
    return [*itertools.takewhile(lambda row: row[1].isdigit(), [*after][1:])]
