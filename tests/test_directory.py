"""The names of a desk beside dictionaries that are made of all its arcs and places at each look-up,
on random networks, step by step."""

from __future__ import annotations

import sys
from collections.abc import Callable, Iterator
from dataclasses import dataclass, field
from random import Random
from types import FrameType

import pytest
from c_library import library_file
from desk_shared import desk_of
from dmf.desk.directory import ARROWS
from dmf.desk.steps import DeskFault, MakePlace, Place
from dmf.desk.workspace import Desk
from dmf.errors import Refused
from dmf.text.lexical import display
from dmf.text.spelling import cleaned, folded

NETWORKS, STEPS = 40, 15
# Names that several have, that differ in case, accents or blanks alone, that cannot be typed as
# they are, or that mean something else too.
PLACES = ["Mill", "mill", "Mïll", "Old  Hall", "Old Hall", "A-B", "A", "B", "b", "#2", "4", "x\x1b"]
PIPES = [
    "Main",
    "main",
    "MÁIN",
    "Straße",
    "STRASSE",
    "Lane\u200f",
    "Lane",
    "\ufeff",
    "Mill-A",
    "#1",
]
INNER = ["what Mill gives at most", "WHAT A LETS THROUGH", "what B takes at most", "supply"]


@dataclass
class Problem:
    """A problem: how many nodes it has, the names of nodes and of arcs by their numbers, the nodes
    that join sources or sinks, the second nodes of places with the first, and the arcs."""

    count: int
    nodes: dict[int, str]
    joints: dict[int, str] = field(default_factory=dict)
    halves: dict[int, int] = field(default_factory=dict)
    arcs: list[tuple[int, int]] = field(default_factory=list)
    names: dict[int, str] = field(default_factory=dict)
    comments: list[str] = field(default_factory=list)

    def text(self, ends: tuple[int, int]) -> bytes:
        lines = [
            *self.comments,
            *(f"c node {number} {name}" for number, name in self.nodes.items()),
            *(f"c arc {number} {name}" for number, name in self.names.items()),
            f"p max {self.count} {len(self.arcs)}",
            f"n {ends[0]} s",
            f"n {ends[1]} t",
            *(f"a {tail} {head} {5 * tail + head}" for tail, head in self.arcs),
        ]
        return "".join(line + "\n" for line in lines).encode()


def problem_of(random: Random) -> tuple[Problem, bytes]:
    """Return a random problem and its text."""
    places = random.randint(3, 8)
    # Names that are typed as they are, in some networks.
    plain = random.random() < 0.4
    pool = PLACES[:3] + PLACES[5:7] if plain else PLACES
    named = [it for it in range(1, places + 1) if random.random() < 0.8]
    made = Problem(places, {number: random.choice(pool) for number in named})
    if random.random() < 0.6:
        for place in random.sample(range(1, places + 1), random.randint(0, 2)):
            made.count += 1
            made.halves[made.count] = place
            made.comments.append(f"c inner node {made.count} half {place}")
        for kind in "sources", "sinks":
            made.count += 1
            made.joints[made.count] = kind
            made.comments.append(f"c inner node {made.count} {kind}")
    exits = {first: second for second, first in made.halves.items()}
    for _ in range(random.randint(2, 12)):
        tail, head = random.sample(range(1, places + 1), 2)
        made.arcs += [(exits.get(tail, tail), head)] * random.choice([1, 1, 2])
        if random.random() < 0.2:
            made.arcs.append((exits.get(head, head), tail))
            made.comments.append(f"c both ways {len(made.arcs) - 1} {len(made.arcs)}")
    rows, roles = len(made.arcs), dict[int, str]()
    for joint, kind in made.joints.items():
        for place in random.sample(range(1, places + 1), random.randint(1, 2)):
            is_source = kind == "sources"
            made.arcs.append((joint, place) if is_source else (exits.get(place, place), joint))
            told = f"{'supply' if is_source else 'demand'} {place}"
            roles[len(made.arcs)] = told + " unlimited" * (random.random() < 0.3)
    for second, first in made.halves.items():
        made.arcs.append((first, second))
        roles[len(made.arcs)] = f"limit {first}"
    made.comments += [f"c inner arc {number} {told}" for number, told in roles.items()]
    for number in range(1, len(made.arcs) + 1):
        if random.random() < 0.7:
            pool = INNER if number > rows else PIPES[:5] if plain else [*PIPES, *PLACES, *INNER]
            made.names[number] = random.choice(pool)
    ends = [*made.joints] or [1, places]
    return made, made.text((ends[0], ends[1]))


class Dictionaries:
    """What texts mean on a desk as it is, by dictionaries of all its arcs and places."""

    def __init__(self, desk: Desk, problem: Problem) -> None:
        self._network, self._problem = desk.network, problem
        self._lines = [*desk.network.lines]
        self._is_any_case = desk.network.names.is_any_case
        self._exits = {first: second for second, first in problem.halves.items()}
        self._made = dict(enumerate(desk.network.marks.made, problem.count + 1))
        self.places: dict[str, list[int]] = {}
        for node in (*range(1, problem.count + 1), *self._made):
            if node not in problem.joints and node not in problem.halves:
                self.places.setdefault(cleaned(self.label(node)), []).append(node)
        self.arcs: dict[str, list[int]] = {}
        self._between: dict[tuple[int, int], list[int]] = {}
        for number, line in enumerate(self._lines, 1):
            if not line.is_replaced:
                self._between.setdefault(line[:2], []).append(number)
                for name in {self.shown(number), display(self._key(number))} - {""}:
                    self.arcs.setdefault(cleaned(name), []).append(number)

    def label(self, node: int) -> str:
        place = self._problem.halves.get(node, node)
        return self._made.get(node) or display(self._problem.nodes.get(place, str(place)))

    def _key(self, number: int) -> str:
        first = self._lines[number - 1].first or number
        if first <= len(self._problem.arcs):
            return self._problem.names.get(first, "")
        key = self._network.lines.key(first)
        return key if isinstance(key, str) else ""

    def shown(self, number: int) -> str:
        tail, head = self._lines[number - 1][:2]
        joints, halves = self._problem.joints, self._problem.halves
        if tail in joints:
            return f"what {self.label(head)} gives at most"
        if head in joints:
            return f"what {self.label(tail)} takes at most"
        if halves.get(head) == tail:
            return f"what {self.label(tail)} lets through"
        return display(self._key(number))

    def alike(self, number: int) -> list[int]:
        ends = self._lines[number - 1][:2]
        return [it for it in self._between.get(ends, ()) if self.shown(it) == self.shown(number)]

    def _numbered(self, name: str) -> int:
        return int(name[1:]) if name[:1] == "#" and name[1:].isdecimal() else 0

    def place_name(self, name: str) -> str:
        if self._is_any_case and len(self.places.get(name, ())) != 1:
            found = [other for other in self.places if folded(other) == folded(name)]
            return found[0] if len(found) == 1 else name
        return name

    def has_place(self, text: str) -> bool:
        return self.place_name(cleaned(text)) in self.places

    def is_place(self, text: str) -> bool:
        return len(self.places.get(self.place_name(cleaned(text)), ())) == 1

    def place(self, text: str) -> object:
        name = self.place_name(cleaned(text))
        nodes = self.places.get(name, [])
        number = self._numbered(name)
        if len(nodes) > 1:
            return "several nodes are called"
        if not nodes and not number:
            return "no place is called"
        node = nodes[0] if nodes else self._problem.halves.get(number, number)
        if node not in self._made and node > self._problem.count or node in self._problem.joints:
            return f"place #{number} does not exist"
        return Place(node, self._exits.get(node, node))

    def new_name(self, text: str) -> object:
        name = cleaned(text)
        if not name or display(name) != name or self._numbered(name):
            return f"{name!r} cannot be"
        counts = [len(it) for other, it in self.places.items() if folded(other) == folded(name)]
        if counts:
            return "a place called" if min(counts) == 1 else "several nodes are called"
        return name

    def arcs_or_none(self, text: str) -> list[int]:
        name = cleaned(text)
        number = self._numbered(name)
        found = {number} & {*range(1, len(self._lines) + 1)} | {*self._called(name)}
        for arrow in (*ARROWS, " "):
            for at in range(len(name)):
                if name.startswith(arrow, at):
                    ends = name[:at].strip(), name[at + len(arrow) :].strip()
                    tails, heads = (self.places.get(self.place_name(end), []) for end in ends)
                    if len(tails) == len(heads) == 1:
                        exit = self._exits.get(tails[0], tails[0])
                        found |= {*self._between.get((exit, heads[0]), ())}
        return sorted({self._network.pipes.number(it) for it in found})

    def _called(self, name: str) -> list[int]:
        if name not in self.arcs and self._is_any_case:
            others = [other for other in self.arcs if folded(other) == folded(name)]
            return self.arcs[others[0]] if len(others) == 1 else []
        return self.arcs.get(name, [])


def texts(random: Random, model: Dictionaries) -> Iterator[str]:
    """Yield texts that may name a place or an arc."""
    places, arcs = [*model.places, *PLACES, "new 1"], [*model.arcs, *PIPES, *INNER]
    yield f"#{random.randint(0, 15)}"
    for name in random.sample(places, 3) + random.sample(arcs, 4):
        yield random.choice([name, name.upper(), name.lower(), display(name)])
        yield folded(name)
        yield f" {name.replace(' ', '   ')}\t"
    for _ in range(6):
        ends = random.choice(places), random.choice(places)
        yield random.choice([*ARROWS, " ", "  - "]).join(ends)


def outcome(ask: Callable[[str], object], text: str, expected: object) -> object:
    """Return what a call returns or, if it is refused, the beginning of why that is expected."""
    try:
        return ask(text)
    except DeskFault as fault:
        return expected if str(expected) and str(fault).startswith(str(expected)) else str(fault)


def judge(desk: Desk, problem: Problem, random: Random, many: bool) -> None:
    names = desk.network.names
    names.is_any_case = random.random() < 0.5
    model = Dictionaries(desk, problem)
    assert {name: [node] for name, node in names.places.items()} == {
        name: nodes for name, nodes in model.places.items() if len(nodes) == 1
    }
    asked = [*texts(random, model)]
    for text in asked if many else random.sample(asked, 1):
        assert names.arcs_or_none(text) == model.arcs_or_none(text), text
        assert names.has_place(text) == model.has_place(text), text
        assert names.is_place(text) == model.is_place(text), text
        for ask, expected in (names.place, model.place(text)), (
            names.new_name,
            model.new_name(text),
        ):
            assert outcome(ask, text, expected) == expected, text
    for number in range(1, len(desk.network.lines) + 1) if many else [1]:
        assert names.alike(number) == model.alike(number)


def act(desk: Desk, random: Random) -> None:
    """Do something random to a desk, if it can be done."""
    names, number = desk.network.names, random.randint(1, len(desk.network.lines))
    nodes = random.sample(range(1, names.node_count + 1), 2)

    def end(node: int) -> Place | MakePlace:
        made = random.random() < 0.2
        return (
            MakePlace(random.choice(["new 1", "Néw 1", "Mill"])) if made else names.place_of(node)
        )

    acts: list[Callable[[], object]] = [
        lambda: desk.close(number),
        lambda: desk.close(number),
        lambda: desk.open(
            random.choice([it for it, line in enumerate(desk.network.lines, 1) if line.is_closed])
        ),
        lambda: desk.add(end(nodes[0]), end(nodes[1]), 7, random.choice(["", *PIPES, *INNER])),
        lambda: desk.double(number),
        lambda: desk.shut(names.place_of(nodes[0])),
        lambda: desk.undo(random.randint(1, 2)),
        lambda: desk.redo(1),
    ]
    try:
        random.choice(acts)()
    except (DeskFault, Refused, IndexError):
        pass


@pytest.mark.parametrize("seed", range(NETWORKS))
def test_beside_dictionaries(seed: int, monkeypatch: pytest.MonkeyPatch) -> None:
    monkeypatch.setenv("DMF_LIBRARY", library_file())
    random = Random(f"directory {seed}")
    problem, text = problem_of(random)
    desk = desk_of(text, with_solve=False)
    try:
        for step in range(STEPS):
            # At first few things are looked up, without an index.
            judge(desk, problem, random, many=step > STEPS // 2)
            act(desk, random)
    finally:
        desk.end()


def test_no_name_of_what_was_undone(monkeypatch: pytest.MonkeyPatch) -> None:
    monkeypatch.setenv("DMF_LIBRARY", library_file())
    desk = desk_of(b"c arc 1 main\np max 2 1\nn 1 s\nn 2 t\na 1 2 5\n")
    names = desk.network.names
    names.is_any_case = True
    try:
        desk.add(names.place("1"), names.place("2"), 3, "Main")
        assert (names.arcs_or_none("MAIN"), names.arcs_or_none("Main")) == ([], [2])
        desk.undo()
        assert names.arcs_or_none("MAIN") == names.arcs_or_none("Main") == [1]
    finally:
        desk.end()


def test_no_call_for_each_arc(monkeypatch: pytest.MonkeyPatch) -> None:
    monkeypatch.setenv("DMF_LIBRARY", library_file())
    count = 2_000
    named = [f"c node {node} place {node}" for node in range(1, count + 2)]
    named += [f"c arc {arc} pipe {arc}" for arc in range(1, count + 1)]
    arcs = [f"a {arc} {arc + 1} 5" for arc in range(1, count + 1)]
    head = [f"p max {count + 1} {count}", "n 1 s", f"n {count + 1} t"]
    desk = desk_of("".join(f"{line}\n" for line in [*named, *head, *arcs]).encode())
    names, calls = desk.network.names, 0

    def note(_: FrameType, event: str, __: object) -> None:
        nonlocal calls
        calls += event == "call"

    sys.setprofile(note)
    try:
        found = [names.arcs_or_none(text) for text in ("pipe 7", "place 8 - place 9", "PIPE 10")]
        names.is_any_case = True
        found += [names.arcs_or_none(text) for text in ("Pipe 11", "PLACE 12 - place 13")]
    finally:
        sys.setprofile(None)
        desk.end()
    assert (found, calls < count / 5) == ([[7], [8], [], [11], [12]], True)
