"""A scripted session on a project that is killed at 200 random moments: of what it was told to do,
nothing is missing but the step in hand."""

from __future__ import annotations

import copy
import os
import random
import signal
import time
from pathlib import Path

import pytest
from desk_shared import greatest, water
from dmf.desk.plan.shell import Shell
from dmf.desk.project.opener import project_desk
from dmf.desk.project.records import Project
from dmf.desk.project.scenarios import project_of
from dmf.desk.project.storage import opened
from project_shared import water_project

KILLS = 200
# How many commands a session is told; how long after a line that it told it is killed at most, and
# after its begin, in seconds.
COMMANDS, AFTER_LINE, AFTER_BEGIN = 12, 0.01, 0.3
PIPES = [pipe.name for pipe in water()]


class Model:
    """What a project has, by the commands alone: by scenario, the capacities that were given and
    how many of these stand."""

    def __init__(self) -> None:
        self.scenarios: dict[str, tuple[list[tuple[str, int]], int]] = {"first": ([], 0)}
        self.present = "first"

    def can(self, command: str) -> bool:
        given, at = self.scenarios[self.present]
        return {"undo": at > 0, "redo": at < len(given)}.get(command, True)

    def do(self, command: str) -> None:
        word, *rest = command.split(" ")
        given, at = self.scenarios[self.present]
        if word == "cap":
            self.scenarios[self.present] = [
                *given[:at],
                (command[5 : command.rindex('"')], int(rest[-1])),
            ], at + 1
        elif word in ("undo", "redo"):
            self.scenarios[self.present] = given, at + (1 if word == "redo" else -1)
        else:
            self.present = rest[1]
            self.scenarios.setdefault(self.present, ([], 0))

    def is_of(self, project: Project) -> bool:
        """Whether a project has just this."""
        found = {
            it.name: (
                [(step.requests[0][1][2], int(step.requests[0][2])) for step in it.steps],
                it.at,
            )
            for it in project.scenarios
        }
        return (found, project.present) == (self.scenarios, self.present)


def command(chance: random.Random, model: Model) -> str:
    """A command that is not refused."""
    others = [name for name in model.scenarios if name != model.present]
    found = [f'cap "{chance.choice(PIPES)}" {chance.randrange(100)}'] * 4 + ["undo", "redo"]
    found += [f"scenario go {name}" for name in others[:1]] + [
        f"scenario new s{len(model.scenarios)}"
    ] * (len(model.scenarios) < 9)
    return chance.choice([it for it in found if model.can(it)])


def session(path: str, commands: list[str]) -> tuple[int, int]:
    """A process that opens a project and carries out commands, and where it tells a line after
    each."""
    reading, writing = os.pipe()
    pid = os.fork()
    if pid:
        os.close(writing)
        return pid, reading
    try:

        def write(text: str) -> None:
            os.write(writing, text.encode())

        plan = Shell(project_desk(path), is_typed=False, write=write)
        plan.run_script(commands)
        plan.desk.end()
    finally:
        os._exit(0)


def killed(path: str, commands: list[str], lines: int, after: float) -> int:
    """How many lines a session told before it was killed: so long after it had told some lines."""
    pid, reading = session(path, commands)
    text = b""
    while text.count(b"\n") < lines and (piece := os.read(reading, 1 << 16)):
        text += piece
    time.sleep(after)
    os.kill(pid, signal.SIGKILL)
    os.waitpid(pid, 0)
    while piece := os.read(reading, 1 << 16):
        text += piece
    os.close(reading)
    return text.count(b"\n")


@pytest.mark.seconds(40)
def test_killed_at_random(tmp_path: Path) -> None:
    desk = water_project(tmp_path)
    path = project_of(desk).file.path
    desk.end()
    chance, model, done, cut_short = random.Random(7), Model(), 0, 0
    for kill in range(KILLS):
        commands, states = [], [model]
        for _ in range(COMMANDS):
            commands.append(command(chance, states[-1]))
            states.append(copy.deepcopy(states[-1]))
            states[-1].do(commands[-1])
        lines = chance.randrange(COMMANDS)
        told = killed(
            path, commands, lines, chance.uniform(0, AFTER_LINE if lines else AFTER_BEGIN)
        )
        assert told >= lines
        file = opened(path)
        assert not file.why_not
        kept = [
            at
            for at in (told, told + 1)
            if at < len(states) and states[at].is_of(file.record.project)
        ]
        assert kept, (
            f"kill {kill}: {told} of {commands} were told, and the project has "
            f"{file.record.project.scenarios}"
        )
        file.end()
        model, done, cut_short = (
            states[kept[-1]],
            done + kept[-1],
            cut_short + (0 < kept[-1] < COMMANDS),
        )
    assert (
        cut_short > KILLS // 10 and done > KILLS
    ), f"{cut_short} sessions were killed between two commands, {done} commands done"
    values(path, model)


def values(path: str, model: Model) -> None:
    """Opened again, each scenario has the value that all sets of places give."""
    desk = project_desk(path)
    for name, (given, at) in model.scenarios.items():
        project_of(desk).go(name)
        capacities = dict(given[:at])
        assert desk.value == greatest(
            [pipe._replace(capacity=capacities.get(pipe.name, pipe.capacity)) for pipe in water()]
        ), name
    assert not desk.news
    desk.end()
