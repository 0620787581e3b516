"""Desks and projects, driven by the same random acts as the model: steps, undo and redo, trials in
trials, scenarios, and projects that are closed and opened again."""

from __future__ import annotations

from collections.abc import Sequence
from pathlib import Path
from random import Random
from typing import Any

import pytest
from c_library import library_file
from dmf.desk.project.opener import project_desk
from dmf.desk.project.scenarios import Scenarios, project_of
from dmf.desk.steps import DeskFault, MakePlace, Place
from dmf.desk.workspace import Desk
from dmf.errors import Refused
from dmf.tables.loader import LoadedProblem
from model.whole_states import DeskModel, Whole
from oracle.network import Arc, State
from oracle.texts import Fault
from project_shared import new_project

# How many acts a desk has, and how many all of them have in the gate and by --long.
ACTS, GATE, LONG, BATCHES = 50, 3_000, 100_000, 10
STEPS = "close", "close", "cap", "cap", "add", "shut", "open", "open"
WORDS = (
    *STEPS,
    "undo",
    "undo",
    "redo",
    "redo",
    "begin_trial",
    "keep",
    "drop",
    "new",
    "copy",
    "go",
    "go",
    "rename",
    "delete",
    "reopen",
)
# What a desk without a project does not know.
SCENARIO_WORDS = "new", "copy", "go", "rename", "delete"


def table(random: Random) -> str:
    """Return a table of arcs between a few places, also side by side, from `s` to `t`."""
    places = ["s", *(f"p{number}" for number in range(random.randint(1, 4))), "t"]
    rows = [
        ("s", places[1]),
        (places[-2], "t"),
        *(tuple(random.sample(places, 2)) for _ in range(random.randint(3, 10))),
    ]
    return "from,to,capacity\n" + "".join(
        f"{tail},{head},{random.choice([0, 1, 2, 3, 5, 9])}\n" for tail, head in rows
    )


def read(text: str, nodes: dict[str, int]) -> Whole:
    """Return the solved network of a table, whose places have these numbers."""
    rows = [row.split(",") for row in text.splitlines()[1:]]
    arcs = tuple(Arc(nodes[tail], nodes[head], int(capacity)) for tail, head, capacity in rows)
    state = State(len(nodes), nodes["s"], nodes["t"], arcs, (0,) * len(arcs))
    return Whole(state, tuple(arc.cap for arc in arcs)).changed("solve")


class Player:
    """A desk that carries out what the model does."""

    def __init__(self, desk: Desk, names: list[str]) -> None:
        self.desk = desk
        self._names = names

    def act(self, word: str, *numbers: Any) -> None:
        """Do an act of the model. Raise a `DeskFault`, or what the network refuses, if it is
        refused."""
        place = self.desk.network.names.place
        if word == "add":
            ends: list[Place | MakePlace] = [
                MakePlace(it) if isinstance(it, str) else place(self.name(it)) for it in numbers[:2]
            ]
            self.desk.add(ends[0], ends[1], numbers[2])
        elif word == "shut":
            self.desk.shut(place(self.name(numbers[0])))
        else:
            owner = project_of(self.desk) if word in SCENARIO_WORDS else self.desk
            getattr(owner, word)(*numbers)

    def name(self, number: int) -> str:
        """Return the place of a number: one of the table, or one that was made."""
        count = len(self._names)
        made = self.desk.network.names.made
        return self._names[number - 1] if number <= count else made[number]

    def told(self) -> tuple[object, ...]:
        """Return all that the desk tells of its present state, by numbers."""
        desk = self.desk
        arcs = [
            (it.is_closed, it.is_replaced, it.capacity, desk.flow(number))
            for number, it in enumerate(desk.network.lines, 1)
        ]
        values = [step.value for step in desk.steps[1:]]
        return (
            desk.value,
            arcs,
            [*desk.cut_arcs()],
            sorted(desk.side()),
            values,
            desk.at - 1,
            desk.trials,
            [*desk.network.names.made.items()],
        )


def expected(model: DeskModel) -> tuple[object, ...]:
    """Return the same of the model."""
    now = model.scenario.now
    arcs = enumerate(zip(now.network.arcs, now.network.flows, now.rooms), 1)
    told = [
        (arc.is_closed, number in now.replaced, room, flow) for number, (arc, flow, room) in arcs
    ]
    cut = now.cut()
    assert cut is not None
    values = [state.network.value() for state in model.scenario.states[1:]]
    made = [*enumerate(now.made, now.network.nodes - len(now.made) + 1)]
    at, trials = model.scenario.at, len(model.floors)
    return now.network.value(), told, cut[2], cut[0], values, at, trials, made


def new_or(random: Random, node: int) -> int | str:
    """Return a node or, seldom, the name of a place to be made, which may be there."""
    return f"new {random.randrange(4)}" if random.random() < 0.15 else node


def numbers_for(random: Random, model: DeskModel, word: str) -> list[Any]:
    """Return what an act speaks of, mostly what is there."""
    now = model.scenario.now
    arcs = list(enumerate(now.network.arcs, 1))
    wanted = [
        number
        for number, arc in arcs
        if arc.is_closed == (word == "open") and number not in now.replaced
    ]
    arc = (
        random.choice(wanted) if wanted and random.random() < 0.9 else random.randint(1, len(arcs))
    )
    nodes, names = random.sample(range(1, now.network.nodes + 1), 2), sorted(model.scenarios)
    name, fresh = random.choice(names), f"s{random.randrange(6)}"
    amount, count = random.choice([0, 1, 2, 5, 9, 30]), random.choice([1, 1, 1, 2, 3])
    found: dict[str, list[Any]] = {
        "close": [arc],
        "open": [arc],
        "cap": [arc, amount],
        "add": [*(new_or(random, node) for node in nodes), amount],
        "shut": nodes[:1],
        "undo": [count],
        "redo": [count],
        "new": [fresh, random.choice(["base", *names])],
        "copy": [fresh],
        "go": [name],
        "rename": [fresh],
        "delete": [name],
    }
    return found.get(word, [])


class Lockstep:
    """A model, a project, and a desk that has no scenarios: where the project goes to another one,
    it restarts with its acts."""

    def __init__(self, random: Random, folder: Path, player: type[Player] = Player) -> None:
        text = table(random)
        (folder / "t.csv").write_text(text)
        desk, self._player = new_project(folder, "t.csv", "--source", "s", "--sink", "t"), player
        names = desk.network.names
        self._names = [names.node(node) for node in range(1, len(names.places) + 1)]
        self.project = player(desk, self._names)
        self.model = DeskModel(
            read(text, {name: number for number, name in enumerate(self._names, 1)})
        )
        self._text = desk.network.subject.text
        self.desk = self._new_desk()

    def _new_desk(self) -> Player:
        """Return a desk that made the acts of the present scenario, one after the other."""
        made, now = (
            Player(Desk(LoadedProblem("t", self._text), with_solve=True), self._names),
            self.model.scenario,
        )
        for word, *numbers in now.acts:
            made.act(str(word), *numbers)
        made.desk.undo(len(now.acts) - now.at)
        return made

    @property
    def _project(self) -> Scenarios:
        return project_of(self.project.desk)

    def act(self, word: str, numbers: list[Any]) -> None:
        """Do an act with all. They agree, also where it is refused."""
        try:
            self._of_model(word, numbers)
        except Fault:
            before = self.project.told()
            with pytest.raises((DeskFault, Refused)):
                self.project.act(word, *numbers)
            assert self.project.told() == before
            return
        self.project.act(word, *numbers)
        if word in ("new", "copy", "go"):
            self.desk.desk.end()
            self.desk = self._new_desk()
        elif word not in SCENARIO_WORDS:
            self.desk.act(word, *numbers)

    def _of_model(self, word: str, numbers: list[Any]) -> None:
        if word in STEPS:
            self.model.step(word, *numbers)
        else:
            getattr(self.model, word)(*numbers)

    def reopen(self) -> None:
        self.project.desk.end()
        self.project = self._player(project_desk(self._project.file.path), self._names)
        assert self.project.desk.news == []

    def judge(self) -> None:
        wanted, project = expected(self.model), self._project
        assert self.project.told() == wanted
        assert self.desk.told() == wanted
        assert ([it.name for it in project.project.scenarios], project.scenario.name) == (
            [*self.model.scenarios],
            self.model.present,
        )

    def end(self) -> None:
        self.project.desk.end()
        self.desk.desk.end()


def play(
    player: type[Player], words: Sequence[str], seed: str, sessions: int, folder: Path
) -> None:
    """Have so many projects make random acts of these words."""
    for number in range(sessions):
        random = Random(f"{seed} {number}")
        inside = folder / str(number)
        inside.mkdir()
        play = Lockstep(random, inside, player)
        try:
            for _ in range(ACTS):
                word = random.choice(words)
                if word != "reopen":
                    play.act(word, numbers_for(random, play.model, word))
                elif not play.model.floors:
                    play.reopen()
                play.judge()
        finally:
            play.end()


@pytest.mark.seconds(20)
@pytest.mark.parametrize("batch", range(BATCHES))
def test_lockstep(
    batch: int, tmp_path: Path, request: pytest.FixtureRequest, monkeypatch: pytest.MonkeyPatch
) -> None:
    monkeypatch.setenv("DMF_LIBRARY", library_file())
    count = (LONG if request.config.getoption("--long") else GATE) // ACTS // BATCHES
    play(Player, WORDS, f"desk {batch}", count, tmp_path)
