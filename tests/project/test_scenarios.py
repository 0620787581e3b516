"""Scenarios of a project: made, named, copied, deleted and switched; each with its own undo and
redo; opened again with the values of a second computation; and what a second desk, a full disk and
an ended session leave of them."""

from __future__ import annotations

import errno
import os
import random
from collections.abc import Callable
from decimal import Decimal
from pathlib import Path
from typing import Any

import pytest
from desk_shared import ODD, end_session, greatest, water, without
from dmf.desk.analysis import trials_of
from dmf.desk.project.opener import project_desk
from dmf.desk.project.scenarios import project_of
from dmf.desk.steps import DeskFault
from dmf.desk.workspace import Desk
from dmf.network import Network
from project_shared import arc_states, named, new_project, supply_project, water_project


def refused(call: Any, *given: Any) -> str:
    with pytest.raises(DeskFault) as fault:
        call(*given)
    return str(fault.value)


def again(desk: Desk) -> Desk:
    """The desk of the same project, closed and opened again."""
    desk.end()
    return project_desk(project_of(desk).file.path)


def names(desk: Desk) -> list[str]:
    return [it.name for it in project_of(desk).project.scenarios]


def test_the_next_day(tmp_path: Path) -> None:
    """Steps, those that were undone too, stand the next day, with each flow."""
    desk = water_project(tmp_path)
    desk.close(named(desk, "Bridge pipe"))
    desk.close(named(desk, "Mill Lane"))
    desk.open(named(desk, "Bridge pipe"))
    desk.shut(desk.network.names.place("North Tower"))
    desk.undo()
    before = arc_states(desk), desk.value, [(it.text, it.value) for it in desk.steps], desk.at
    assert desk.value == without("Mill Lane")
    desk = again(desk)
    assert (
        arc_states(desk),
        desk.value,
        [(it.text, it.value) for it in desk.steps],
        desk.at,
    ) == before and not desk.news
    desk.redo()
    assert desk.value == greatest(
        [it for it in water() if "North Tower" not in it[:2] and it.name != "Mill Lane"]
    )
    desk.end()


def test_scenarios(tmp_path: Path) -> None:
    desk = water_project(tmp_path)
    desk.close(named(desk, "Bridge pipe"))
    project_of(desk).new("Flood", "first")
    desk.close(named(desk, "Mill Lane"))
    assert desk.value == without("Bridge pipe", "Mill Lane")
    assert "1 step of its own" in refused(desk.undo, 2)
    desk.undo()
    assert "0 steps of its own" in refused(desk.undo) and desk.value == without("Bridge pipe")
    desk.redo()
    project_of(desk).copy("Flood, again")
    desk.undo()
    project_of(desk).note('a "note"\nof two lines')
    project_of(desk).rename(ODD)
    project_of(desk).new("Market")
    assert (desk.value, project_of(desk).scenario.begun_from) == (165, "")
    project_of(desk).go("Flood")
    assert desk.value == without("Bridge pipe", "Mill Lane")
    project_of(desk).go(ODD)
    assert (desk.value, project_of(desk).scenario.note) == (
        without("Bridge pipe"),
        'a "note"\nof two lines',
    )
    for name, told in {
        "": "needs a name",
        "base": "network of the table",
        "Flood": "already",
    }.items():
        for call in project_of(desk).new, project_of(desk).copy, project_of(desk).rename:
            assert told in refused(call, name)
    assert "no scenario is called" in refused(
        project_of(desk).go, "nobody"
    ) and "no scenario is called" in refused(project_of(desk).new, "more", "nobody")
    assert "present" in refused(project_of(desk).delete, ODD)
    desk.begin_trial()
    assert "trial" in refused(project_of(desk).go, "first") and "trial" in refused(
        project_of(desk).new, "more"
    )
    desk.close(named(desk, "Mill Lane"))
    desk.drop()
    project_of(desk).delete("Market")
    desk = again(desk)
    assert (names(desk), desk.value) == (["first", "Flood", ODD], without("Bridge pipe"))
    desk.redo()
    assert desk.value == without("Bridge pipe", "Mill Lane")
    project_of(desk).go("first")
    assert (desk.value, desk.at) == (without("Bridge pipe"), 2)
    desk.end()


@pytest.mark.parametrize("seed", range(2))
def test_random(tmp_path: Path, seed: int) -> None:
    """Random steps in several scenarios, with amounts of several decimals, some of them undone:
    opened again, each is as it was."""
    chance = random.Random(seed)
    desk = supply_project(tmp_path)
    places = list(desk.network.names.places)

    def opened(is_closed: bool = False) -> int:
        numbers = [
            n
            for n, it in enumerate(desk.network.lines, 1)
            if it.is_closed == is_closed and not it.is_replaced
        ]
        return chance.choice(numbers or [1])

    acts: list[Any] = [
        lambda: desk.close(opened()),
        lambda: desk.cap(opened(), Decimal(chance.randrange(400)) / chance.choice([1, 4, 5])),
        lambda: desk.double(opened()),
        lambda: desk.open(opened(True)),
        lambda: desk.add(
            desk.network.names.place(chance.choice(places)),
            desk.network.names.place(chance.choice(places)),
            chance.randrange(80),
            chance.choice(["", ODD]),
        ),
        lambda: desk.shut(desk.network.names.place(chance.choice(places))),
        lambda: desk.open_place(desk.network.names.place(chance.choice(places))),
        lambda: desk.undo(chance.randrange(1, 3)),
        lambda: desk.redo(),
        lambda: project_of(desk).new(f"s{len(names(desk))}", chance.choice(["base", *names(desk)])),
        lambda: project_of(desk).go(chance.choice(names(desk))),
    ]
    kept: dict[str, object] = {}
    for _ in range(120):
        try:
            chance.choice(acts)()
        except DeskFault:
            continue
        kept[project_of(desk).scenario.name] = (
            arc_states(desk),
            desk.value,
            desk.at,
            [(it.text, it.value) for it in desk.steps],
        )
    assert len(kept) > 3 and len({str(it) for it in kept.values()}) > 3
    desk = again(desk)
    for name in [*kept, *kept]:
        project_of(desk).go(name)
        assert (
            arc_states(desk),
            desk.value,
            desk.at,
            [(it.text, it.value) for it in desk.steps],
        ) == kept[name], name
    assert not desk.news
    desk.end()


def test_a_trial_keeps_nothing_that_is_only_tried(tmp_path: Path) -> None:
    desk = water_project(tmp_path)
    before = project_of(desk).project.serial
    with desk.aside() as tried:
        tried.close(named(tried, "Bridge pipe"))
    list(trials_of(desk, [1, 2]))
    assert project_of(desk).project.serial == before and not project_of(desk).scenario.steps
    desk.end()


def test_a_full_disk(tmp_path: Path, monkeypatch: pytest.MonkeyPatch) -> None:
    """What cannot be kept is not done, and nothing else is lost: a step, one back, one on, and a
    scenario."""
    desk = water_project(tmp_path)
    desk.close(named(desk, "Bridge pipe"))
    desk.close(named(desk, "Mill Lane"))
    desk.undo()
    before = (
        arc_states(desk),
        desk.value,
        desk.at,
        len(desk.steps),
        names(desk),
        project_of(desk).project.present,
    )

    def full(*_: object) -> int:
        raise OSError(errno.ENOSPC, os.strerror(errno.ENOSPC))

    monkeypatch.setattr(os, "fdatasync", full)
    calls: list[Any] = [
        lambda: desk.close(named(desk, "Main") if "Main" in desk.network.names.places else 1),
        desk.undo,
        desk.redo,
        lambda: project_of(desk).new("more"),
        lambda: project_of(desk).copy("more"),
        lambda: project_of(desk).rename("more"),
        lambda: project_of(desk).note("x"),
        lambda: desk.go_to(1),
    ]
    for call in calls:
        assert "nothing was done, since it could not be written" in refused(
            call
        ) and "No space left" in refused(call)
        assert (
            arc_states(desk),
            desk.value,
            desk.at,
            len(desk.steps),
            names(desk),
            project_of(desk).project.present,
        ) == before
    monkeypatch.undo()
    desk.redo()
    assert again(desk).value == without("Bridge pipe", "Mill Lane")


def test_two_desks(tmp_path: Path) -> None:
    """The second desk looks and tries, and changes nothing."""
    first = water_project(tmp_path)
    first.close(named(first, "Bridge pipe"))
    project_of(first).new("Flood")
    second = project_desk(project_of(first).file.path)
    assert second.news == ["it is read-only, since another desk has it open"]
    calls: list[Any] = [
        lambda: second.close(1),
        second.undo,
        second.redo,
        second.solve,
        lambda: project_of(second).new("x"),
        lambda: project_of(second).copy("x"),
        lambda: project_of(second).rename("x"),
        lambda: project_of(second).delete("first"),
        lambda: project_of(second).note("x"),
    ]
    project_of(second).go("first")
    assert second.value == without("Bridge pipe")
    for call in calls:
        assert "read-only" in refused(call)
    with second.aside() as tried:
        tried.close(named(tried, "Mill Lane"))
        assert tried.value == without("Bridge pipe", "Mill Lane")
    second.end()
    first.close(named(first, "Mill Lane"))
    first = again(first)
    assert (project_of(first).scenario.name, first.value, names(first)) == (
        "Flood",
        without("Mill Lane"),
        ["first", "Flood"],
    )
    first.end()


def test_an_ended_session(tmp_path: Path, monkeypatch: pytest.MonkeyPatch) -> None:
    """Between scenarios, and while another is looked at: the desk begins again where it was."""
    desk = water_project(tmp_path)
    desk.close(named(desk, "Bridge pipe"))
    project_of(desk).new("Flood")
    desk.close(named(desk, "Mill Lane"))
    close = Network.close

    def failing(network: Network[Any], arc: Any) -> int:
        close(network, arc)
        raise MemoryError

    monkeypatch.setattr(Network, "close", failing)
    calls: list[Callable[[], object]] = [lambda: project_of(desk).go("first"), lambda: visit(desk)]
    for call in calls:
        with pytest.raises(MemoryError):
            call()
        assert desk.has_ended and project_of(desk).scenario.name == "Flood"
        monkeypatch.undo()
        desk.begin_again()
        assert (desk.value, desk.at) == (without("Mill Lane"), 2)
        monkeypatch.setattr(Network, "close", failing)
    monkeypatch.undo()
    with pytest.raises(Exception, match="ended|killed|SIGKILL"):
        with project_of(desk).visiting("first") as shown:
            end_session()
            shown.close(named(shown, "Mill Lane"))
    desk.begin_again()
    assert (desk.value, desk.at, project_of(desk).scenario.name) == (
        without("Mill Lane"),
        2,
        "Flood",
    )
    desk.undo()
    assert again(desk).value == 165


def visit(desk: Desk) -> None:
    with project_of(desk).visiting("first"):
        raise AssertionError("it was not visited")


def test_positions(tmp_path: Path) -> None:
    """Where places stand in a picture is kept by their names, and forgotten; no other name has a
    place."""
    desk = water_project(tmp_path)
    project_of(desk).take_positions({"Mill": (1.5, -2), "Market": (0, 3)})
    project_of(desk).take_positions({"Market": None, "Harbour": (4, 4)})
    assert "no place is called 'Nowhere'" in refused(
        project_of(desk).take_positions, {"Mill": (0, 0), "Nowhere": (1, 1)}
    )
    desk = again(desk)
    assert project_of(desk).project.positions == {"Mill": (1.5, -2), "Harbour": (4, 4)}
    desk.end()


def test_values_that_differ_are_told(tmp_path: Path) -> None:
    desk = water_project(tmp_path)
    desk.close(named(desk, "Bridge pipe"))
    desk.end()
    path = Path(project_of(desk).file.path)
    path.write_text(path.read_text().replace('"value": "155"', '"value": "150"'))
    desk = project_desk(str(path))
    assert desk.news == [
        "scenario 'first', step 1, close Bridge pipe: the value is 155, and 150 was kept"
    ]
    desk = again(desk)
    assert not desk.news and desk.value == 155
    desk.end()


def test_odd_names(tmp_path: Path) -> None:
    """Names with quotes, ends of lines, commas and signs; two arcs alike, and a name that is a
    number of an arc."""
    quoted = ODD.replace('"', '""')
    rows = [
        f'"{quoted}","b ""q""",5,"one\ntwo"',
        f'"{quoted}","b ""q""",7,"one\ntwo"',
        '"b ""q""","#2",9,#1',
        '"b ""q""","#2",3,',
    ]
    (tmp_path / "odd.csv").write_text("from,to,capacity,name\n" + "\n".join(rows) + "\n")
    desk = new_project(tmp_path, "odd.csv")
    assert desk.value == 12
    desk.cap(2, 4)
    desk.close(3)
    desk.double(4)
    desk.add(desk.network.names.place(ODD), desk.network.names.place("#2"), 2, 'a "b"\nc')
    assert desk.value == 8
    before = arc_states(desk)
    desk = again(desk)
    assert (arc_states(desk), desk.value, desk.news) == (before, 8, [])
    desk.end()
