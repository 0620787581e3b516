"""The shell of dmf-plan and the board, on projects that are driven by the same random acts as the
model, by lines that are typed and by requests of the page; and their commands, broken off."""

from __future__ import annotations

import json
from collections.abc import Callable, Iterator
from itertools import count
from pathlib import Path
from random import Random
from typing import Any

import pytest
from c_library import library_file
from dmf.desk.board.routes import Board
from dmf.desk.plan.json_output import JsonOutput
from dmf.desk.plan.shell import Shell
from dmf.desk.project.scenarios import project_of
from dmf.desk.steps import DeskFault
from dmf.desk.workspace import Desk
from model.test_desks import ACTS, SCENARIO_WORDS, WORDS, Player, play
from model.test_interruptions import IN_GATE, Breaking
from project_shared import water_project

# How many acts a shell has in the gate and by --long, and so has a board.
GATE, LONG = 500, 20_000
# What a page cannot ask for.
TRIALS = "begin_trial", "keep", "drop"


class ShellPlayer(Player):
    """The shell of a project's desk, which answers in JSON."""

    def __init__(self, desk: Desk, names: list[str]) -> None:
        self._told: list[str] = []
        self._shell = Shell(desk, is_typed=False, write=self._told.append, output=JsonOutput)
        super().__init__(desk, names)

    def act(self, word: str, *numbers: Any) -> None:
        self._told.clear()
        self._shell.onecmd(self._line(word, *numbers))
        *answers, last = map(json.loads, "".join(self._told).splitlines())
        if last["event"] == "refused":
            assert answers == []
            raise DeskFault(last["why"])
        if "value" in last:
            assert (last["value"]["told"], last["steps"]) == (str(self.desk.value), self.desk.at)
            assert last["scenario"] == project_of(self.desk).scenario.name

    def _line(self, word: str, *numbers: Any) -> str:
        """Return what is typed for an act."""
        if word == "add":
            tail, head = (
                f'--new "{it}"' if isinstance(it, str) else f'"{self.name(it)}"'
                for it in numbers[:2]
            )
            return f"add {tail} {head} {numbers[2]}"
        if word == "shut":
            return f"shut {self.name(numbers[0])}"
        if word in ("close", "open", "cap"):
            return " ".join([word, f"#{numbers[0]}", *map(str, numbers[1:])])
        if word == "new" and numbers[1] != "base":
            return f"scenario new {numbers[0]} from {numbers[1]}"
        if word in SCENARIO_WORDS:
            return f"scenario {'name' if word == 'rename' else word} {numbers[0]}"
        return " ".join(["try" if word == "begin_trial" else word, *map(str, numbers)])


class BoardPlayer(Player):
    """The board of a project's desk, which a page asks."""

    def __init__(self, desk: Desk, names: list[str]) -> None:
        self._board = Board(desk)
        super().__init__(desk, names)

    def act(self, word: str, *numbers: Any) -> None:
        if word == "add" and isinstance(numbers[0], str):
            # A page adds arcs from a place that is there.
            super().act(word, *numbers)
            return
        asked = self._asked(word, *numbers) | {"turn": self.desk.turn}
        answer = self._board.post("do", asked)
        told = json.loads(answer.body)
        if answer.status == 409:
            raise DeskFault(told["error"])
        assert answer.status == 200
        desk = self.desk
        values = [step["value"] for step in told["steps"]]
        assert (told["value"], told["at"]) == (str(desk.value), desk.at - 1)
        assert values == [str(step.value) for step in desk.steps]
        assert (told["scenario"], told["turn"]) == (project_of(desk).scenario.name, desk.turn)

    def _asked(self, word: str, *numbers: Any) -> dict[str, object]:
        """Return what a page asks for an act."""
        if word in SCENARIO_WORDS:
            said = {"name": numbers[0]} | ({"from": numbers[1]} if word == "new" else {})
            return {"what": f"scenario-{'name' if word == 'rename' else word}", **said}
        if word in ("undo", "redo"):
            by = numbers[0] if word == "redo" else -numbers[0]
            return {"what": "go", "step": self.desk.at - 1 + by}
        if word == "add":
            is_new = isinstance(numbers[1], str)
            ends = {"tail": numbers[0], "head": numbers[1] if is_new else self.name(numbers[1])}
            what = "add-new" if is_new else "add"
            return {"what": what, **ends, "capacity": str(numbers[2]), "name": ""}
        if word == "shut":
            return {"what": "shut", "node": numbers[0]}
        capacity = {"capacity": str(numbers[1])} if word == "cap" else {}
        return {"what": word, "arc": numbers[0], **capacity}


@pytest.mark.seconds(10)
@pytest.mark.parametrize("player", [ShellPlayer, BoardPlayer])
def test_lockstep(
    player: type[Player],
    tmp_path: Path,
    request: pytest.FixtureRequest,
    monkeypatch: pytest.MonkeyPatch,
) -> None:
    monkeypatch.setenv("DMF_LIBRARY", library_file())
    words = [word for word in WORDS if player is ShellPlayer or word not in TRIALS]
    count = (LONG if request.config.getoption("--long") else GATE) // ACTS
    play(player, words, player.__name__, count, tmp_path)


def projects(folder: Path) -> Iterator[Desk]:
    """Return desks of projects in one state, each in a folder of its own."""
    for number in count():
        inside = folder / str(number)
        inside.mkdir()
        desk = water_project(inside)
        desk.close(desk.network.the_arc("Bridge pipe"))
        desk.close(desk.network.the_arc("North rise"))
        desk.undo()
        yield desk
        desk.end()


def told(desk: Desk) -> tuple[object, ...]:
    steps = [(step.text, step.value) for step in desk.steps]
    lines = [(it.is_closed, it.capacity) for it in desk.network.lines]
    project = project_of(desk).project
    kept = [(it.name, it.at, [step.text for step in it.steps]) for it in project.scenarios]
    made = desk.network.names.made
    places = made, project.moved
    return steps, desk.at, desk.value, lines, [*desk.cut_arcs()], places, kept, project.present


def typed(line: str) -> Callable[[Desk], object]:
    def act(desk: Desk) -> None:
        # Ctrl-C is told, and where the session has ended for it, another one has begun.
        Shell(desk, is_typed=False, write=lambda _: None, output=JsonOutput).onecmd(line)

    return act


def asked(**fields: object) -> Callable[[Desk], object]:
    def act(desk: Desk) -> None:
        Board(desk).post("do", {**fields, "turn": desk.turn})

    return act


def dragged(desk: Desk) -> None:
    """Move a place in the picture."""
    made, mill = Board(desk), desk.network.names.place("Mill")
    made.get("picture", {"near": ""})
    spot = {"node": mill.entry, "right": 150, "down": -200, "form": 0}
    made.post("move", {**spot, "turn": desk.turn})


BROKEN_OFF = {
    "a line": (typed("close Mill Lane"), KeyboardInterrupt),
    "a new place of a line": (typed('add Mill --new "New Town" 50'), KeyboardInterrupt),
    "a line that changes nothing": (typed("what-if shut Market"), KeyboardInterrupt),
    "a scenario of a line": (typed("scenario new more"), KeyboardInterrupt),
    "steps of a line": (typed("undo"), KeyboardInterrupt),
    # Requests are answered in threads, where no Ctrl-C comes, but the memory may be full.
    "a request": (asked(what="cap", arc=1, capacity="7.5"), MemoryError),
    "a new place of a request": (
        asked(what="add-new", tail=5, head="New Town", capacity="2.5", name=""),
        MemoryError,
    ),
    "a scenario of a request": (asked(what="scenario-copy", name="more"), MemoryError),
    "steps of a request": (asked(what="go", step=2), MemoryError),
    "a place that is dragged": (dragged, MemoryError),
}


@pytest.mark.parametrize("act, error", BROKEN_OFF.values(), ids=list(BROKEN_OFF))
def test_broken_off(
    act: Callable[[Desk], object],
    error: type[BaseException],
    tmp_path: Path,
    request: pytest.FixtureRequest,
    monkeypatch: pytest.MonkeyPatch,
) -> None:
    """The state is that before the act or that after it, and the next act is right."""
    monkeypatch.setenv("DMF_LIBRARY", library_file())
    desks = projects(tmp_path)
    desk = next(desks)
    before, counted = told(desk), Breaking(0)
    counted.call(act, desk)
    after = told(desk)
    desk.close(desk.network.the_arc("South main"))
    later = told(desk)
    tried: list[int] = list(range(1, counted.count + 1))
    if not request.config.getoption("--long"):
        tried = sorted(Random(str(counted.count)).sample(tried, IN_GATE))
    for at in tried:
        desk = next(desks)
        Breaking(at, error).call(act, desk)
        if desk.has_ended:
            desk.begin_again()
        found = told(desk)
        assert found in (before, after), at
        if found != after:
            act(desk)
            assert told(desk) == after, at
        desk.close(desk.network.the_arc("South main"))
        assert told(desk) == later, at
