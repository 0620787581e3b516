"""What version 0.1.0 has kept is still read: pickles of answers and errors, and projects with an
unwritten journal.

Each is compared with what the same calls give now."""

from __future__ import annotations

import pickle
import shutil
from importlib import import_module
from pathlib import Path
from typing import Any

import dmf
import pytest
from earlier.acts import PROJECTS, answers, answers_of_a_project, play

HERE = Path(__file__).parent


# The modules in which a program could import public names then.
MODULES = {
    "arcs": ["Arc"],
    "errors": ["Error", "NoSuchArc", "Refused"],
    "executable": ["program"],
    "network": ["Network", "Row"],
    "once": ["MatrixFlow", "maximum_flow", "minimum_cut", "value"],
    "project.comparison": ["Comparison"],
    "project.form": ["ProjectFault"],
    "project.live": ["OpenProject", "new_project", "open_project"],
    "solution": ["Cut", "Solution"],
    "sources": ["from_networkx", "from_scipy", "read"],
    "sweeping": [
        "SweepResult",
        "each_arc_closed",
        "each_capacity_raised",
        "each_node_shut",
        "each_pair_added",
        "sweep",
    ],
    "tables.faults": ["TableFault"],
    "tables.live": ["TableNetwork"],
    "tables.opened": ["read_table"],
    "ways": ["library"],
}


def project_path(name: str, folder: Path) -> Path:
    return folder / f"{Path(PROJECTS[name][0]).stem}.dmf.json"


def earlier_project(name: str, folder: Path) -> dmf.OpenProject:
    """Open a copy of a project of 0.1.0, as a kill has left it."""
    shutil.copytree(HERE / name, folder)
    return dmf.open_project(project_path(name, folder))


def same_project(name: str, folder: Path) -> dmf.OpenProject:
    """Make a project of the same table, and do the same with it. Version 0.1.0 made two rows of one
    that leads both ways, so both stand in this table."""
    table, given, first, second = PROJECTS[name]
    folder.mkdir()
    for path in (HERE / name).glob("*.csv"):
        shutil.copy(path, folder)
    arguments = {
        key: folder / value if str(value).endswith(".csv") else value
        for key, value in given.items()
    }
    if arguments.pop("both_ways", False):
        (folder / table).write_text(with_rows_back((folder / table).read_text()))
    project = dmf.new_project(folder / table, **arguments)
    play(project, first + second)
    return project


def with_rows_back(text: str) -> str:
    """Return a table with a row back below each row of an arc."""
    title, *rows = text.splitlines()
    found = [title]
    for row in rows:
        tail, head, rest = row.split(";", 2)
        found += [row, f"{head};{tail};{rest}"] if head else [row]
    return "".join(f"{row}\n" for row in found)


def states(project: dmf.OpenProject) -> list[object]:
    """Return what a project shows of each scenario, also of the steps that were undone."""
    found: list[object] = [project.scenario, project.steps]
    for scenario in project.scenarios:
        value, steps = project.go(scenario), project.steps
        found.append((scenario, value, project.unit, project.limit, steps))
        undone = len(steps)
        while True:
            try:
                project.redo()
            except dmf.ProjectFault:
                break
        found.append((undone, project.value, project.steps))
    return found


@pytest.mark.parametrize("name", PROJECTS)
def test_a_project(name: str, tmp_path: Path) -> None:
    with earlier_project(name, tmp_path / "earlier") as before, same_project(
        name, tmp_path / "now"
    ) as now:
        assert before.news == []
        assert states(before) == states(now)
    # What the journal had is in the file now.
    assert not list((tmp_path / "earlier").glob("*.journal"))
    with dmf.open_project(project_path(name, tmp_path / "earlier")) as again:
        assert again.news == []


def test_values_of_water(tmp_path: Path) -> None:
    """The limit of each scenario, added up by hand from the table and the acts."""
    with earlier_project("water", tmp_path / "earlier") as project:
        # Of Wider one step is left: without the Mill pipe, the Mill has the 30 of the Canal pipe,
        # and 60 + 30 + 50 flow.
        assert (project.scenarios, project.scenario, project.value) == (
            ["first", "Wider", "Flood"],
            "Wider",
            140,
        )
        # Flood: without Market Street and South Tower all goes by the Station pipe, of 40.
        assert (project.go("Flood"), [step.text for step in project.steps]) == (
            40,
            ["shut South Tower", "close Market Street"],
        )


def shown(answer: Any) -> object:
    """Return what an answer holds. Arcs are equal only to themselves, so they are compared by what
    they say."""
    if isinstance(answer, dmf.Solution):
        flows = [
            (arc.number, arc.tail, arc.head, arc.given_key, flow) for arc, flow in answer.items()
        ]
        return type(answer), answer.value, flows, answer.flow_dict(), answer._repr_html_()
    if isinstance(answer, dmf.Cut):
        parts = (
            answer.capacity,
            answer.side,
            answer.other_side,
            repr(answer.arcs),
            getattr(answer, "terms", ()),
        )
        return type(answer), parts, answer._repr_svg_(), answer._repr_html_()
    return (
        type(answer),
        str(answer),
        repr(answer),
        getattr(answer, "__dict__", None) and sorted(vars(answer)),
    )


@pytest.mark.parametrize("module", MODULES)
def test_imports(module: str) -> None:
    found = import_module(f"dmf.{module}")
    for name in MODULES[module]:
        assert getattr(found, name) is getattr(dmf, name)
    with pytest.raises(AttributeError, match=f"^module 'dmf.{module}' has no attribute 'nothing'$"):
        found.nothing


def test_other_modules() -> None:
    with pytest.raises(ModuleNotFoundError, match=r"^No module named 'dmf\.nothing'$"):
        import_module("dmf.nothing")


def test_pickles(tmp_path: Path, monkeypatch: pytest.MonkeyPatch) -> None:
    monkeypatch.chdir(HERE / "valley")
    now = answers(Path())
    with earlier_project("valley", tmp_path / "earlier") as project:
        now |= answers_of_a_project(project)
    kept = {path.stem: path.read_bytes() for path in (HERE / "pickles").iterdir()}
    assert {*kept} == {*now}
    for name, data in kept.items():
        before = pickle.loads(data)
        assert shown(before) == shown(now[name]), name
        assert shown(pickle.loads(pickle.dumps(before))) == shown(now[name]), name
