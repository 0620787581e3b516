"""Projects as they come from disk, with anything in place of what they should have: opened, or
refused with the place. What is refused stays as it is, each byte of it."""

from __future__ import annotations

import json
import os
import shutil
from collections.abc import Iterator
from pathlib import Path
from random import Random
from typing import Any

import dmf
import pytest
from desk_shared import run
from dmf.desk.project.journal import journal_of
from dmf.desk.project.scenarios import project_of
from dmf.desk.project.storage import opened
from project_files import begun, left, made_project
from project_shared import named, water_project

pytestmark = pytest.mark.usefixtures("by_library")
# What stands in place of something, as JSON: of other types, past bounds, of letters that no file
# has, and of names that exist.
ODD: list[str] = [
    "null",
    "true",
    "-1",
    "0",
    "7",
    "1.5",
    "1e400",
    "-1e999",
    "9" * 5_000,
    "1" + "0" * 400,
    "NaN",
    '""',
    '"x"',
    '"1e50"',
    f'"0.{"0" * 51}1"',
    '"-1"',
    '"1_0"',
    '" 1"',
    '"\u0661"',
    '"Infinity"',
    f'"{"9" * 5_000}"',
    '"1e-400000000"',
    '"\\ud800"',
    '"\\udfff"',
    '"\\u0000"',
    '"."',
    '"/"',
    '"/dev/zero"',
    '"fifo"',
    '"base"',
    '"first"',
    "[]",
    "{}",
    '["x"]',
    '{"x": 1}',
    "[[]]",
    '["close", ["Mill", "Market", "Mill Lane"]]',
    '["cap", ["supply", "Mill"], "1"]',
    '"p max 2 5\\nn 1 s\\nn 2 t\\na 1 2 3\\n"',
    '"p max 2 1\\nn 1 s\\nn 2 t\\na 1 2 3\\n"',
    '"p max 2 1\\nn 1 s\\nn 2 t\\na 1 2 18446744073709551615\\n"',
]
HOLE = "\0hole\0"
GATE, LONG = 1_200, 40_000


@pytest.fixture(scope="module")
def made(tmp_path_factory: pytest.TempPathFactory) -> Path:
    """Return the folder of a project with two scenarios and steps of each kind."""
    folder = tmp_path_factory.mktemp("made")
    desk = water_project(folder)
    desk.close(named(desk, "Bridge pipe"))
    desk.cap(named(desk, "Mill Lane"), 60)
    desk.shut(desk.network.names.place("North Tower"))
    desk.add(desk.network.names.place("Mill"), desk.network.names.place("Station"), 25, "New")
    desk.open(named(desk, "Bridge pipe"))
    desk.undo()
    project_of(desk).note("why")
    project_of(desk).take_positions({"Mill": (1.5, 2.0)})
    project_of(desk).new("Flood", "first")
    desk.close(named(desk, "Mill Lane"))
    desk.end()
    os.mkfifo(folder / "fifo")
    return folder


def places(content: Any) -> Iterator[tuple[Any, Any]]:
    """Yield each list and each object of a content in JSON, with each key in it."""
    for key in (
        list(content)
        if isinstance(content, dict)
        else range(len(content))
        if isinstance(content, list)
        else ()
    ):
        yield content, key
        yield from places(content[key])


def mutant(text: bytes, random: Random) -> bytes:
    """Return a text in JSON with something odd at one place, or without it."""
    content = json.loads(text)
    where, key = random.choice(list(places(content)))
    if isinstance(where, dict) and random.random() < 0.1:
        where[json.loads(random.choice(['"\\ud800"', '"x"', '""']))] = where.pop(key)
        return json.dumps(content).encode()
    if random.random() < 0.1:
        del where[key]
        return json.dumps(content).encode()
    where[key] = HOLE
    return json.dumps(content).replace(json.dumps(HOLE), random.choice(ODD)).encode()


def files(folder: Path) -> dict[str, bytes]:
    return {it.name: it.read_bytes() for it in folder.iterdir() if it.is_file()}


def judge(path: Path) -> bool:
    """Open a project. It opens, and again afterwards; or it is refused in a line that begins with
    its path, and stays as it is."""
    before = files(path.parent)
    try:
        project = dmf.open_project(path)
    except dmf.ProjectFault as fault:
        told = str(fault)
        assert (
            told.startswith((f"{path}: ", f"{journal_of(str(path))}: "))
            and "\n" not in told
            and told.isprintable()
        ), told
        assert files(path.parent) == before
        return False

    names, value = project.scenarios, project.value
    for name in names:
        project.go(name)
    project.go(names[0])
    value = project.value
    project.end()
    with dmf.open_project(path) as again:
        assert (again.scenarios, again.value) == (names, value)
    return True


@pytest.mark.parametrize("batch", range(4))
def test_mutants(made: Path, tmp_path: Path, batch: int, request: pytest.FixtureRequest) -> None:
    count = (LONG if request.config.getoption("--long") else GATE) // 4
    random, text = Random(f"mutants {batch}"), (made / "kept.dmf.json").read_bytes()
    refused = 0
    for number in range(count):
        folder = tmp_path / str(number)
        folder.mkdir()
        os.mkfifo(folder / "fifo")
        shutil.copy(made / "pipes.csv", folder)
        given = mutant(text, random)
        (folder / "kept.dmf.json").write_bytes(given)
        if number % 2:
            # The table is another one now, and so is read again.
            (folder / "pipes.csv").write_text(
                (made / "pipes.csv").read_text().replace("Mill Lane", "Mill Way")
            )
        try:
            refused += not judge(folder / "kept.dmf.json")
        except BaseException:
            print(given.decode())
            raise
        shutil.rmtree(folder)
    assert count / 2 < refused < count


def test_mutants_of_journals(made: Path, tmp_path: Path, request: pytest.FixtureRequest) -> None:
    """Something odd in a line of a journal, which a kill left behind."""
    count = (LONG if request.config.getoption("--long") else GATE) // 4
    random, refused = Random("journals"), 0
    shutil.copytree(made, tmp_path / "killed", ignore=shutil.ignore_patterns("fifo"))
    project = dmf.open_project(tmp_path / "killed/kept.dmf.json")
    project.cap("Mill Street" if "Mill Street" in str(project.limit) else "Market Street", "70.5")
    project.undo()
    project.new("third")
    project.note("why")
    left(project_of(project._desk).file)
    lines = (tmp_path / "killed/kept.dmf.journal").read_bytes().splitlines()
    for number in range(count):
        folder = tmp_path / str(number)
        folder.mkdir()
        os.mkfifo(folder / "fifo")
        for name in "pipes.csv", "kept.dmf.json":
            shutil.copy(tmp_path / "killed" / name, folder)
        at = random.randrange(len(lines))
        (folder / "kept.dmf.journal").write_bytes(
            b"".join(
                it + b"\n" for it in [*lines[:at], mutant(lines[at], random), *lines[at + 1 :]]
            )
        )
        refused += not judge(folder / "kept.dmf.json")
        shutil.rmtree(folder)
    assert count / 2 < refused < count


@pytest.mark.parametrize(
    "text",
    [
        b"my own notes",
        b"my own notes\n",
        b'{"dmf journal": 1, "id": "other"',
        b'{"dmf journal": 1, "id": "ab", "after": x',
        b"{",
        b"\n",
        b"{}\n",
    ],
)
def test_no_journal(tmp_path: Path, text: bytes) -> None:
    """A file that is not a journal is never written, and where it may be the beginning of one, it
    is only that."""
    path = made_project(tmp_path)
    before = Path(path).read_bytes()
    Path(journal_of(path)).write_bytes(text)
    if text == b"{":
        opened(path).end()
        return
    with pytest.raises(dmf.ProjectFault) as fault:
        opened(path)
    assert str(fault.value).startswith(journal_of(path))
    assert (Path(path).read_bytes(), Path(journal_of(path)).read_bytes()) == (before, text)


def test_a_journal_that_is_a_link(tmp_path: Path) -> None:
    """Also one to the journal of this project."""
    path = made_project(tmp_path)
    left(begun(path))
    before = files(tmp_path)
    os.rename(journal_of(path), tmp_path / "elsewhere")
    os.symlink(tmp_path / "elsewhere", journal_of(path))
    with pytest.raises(
        dmf.ProjectFault, match="is a link or not a file, so it is not a journal; move it away"
    ):
        opened(path)
    os.rename(tmp_path / "elsewhere", journal_of(path))
    assert files(tmp_path) == before
    opened(path).end()


def test_pipes(tmp_path: Path) -> None:
    """A pipe in place of the journal, of the project, and of the table has no end that could be
    waited for."""
    path = made_project(tmp_path)
    before = Path(path).read_bytes()
    os.mkfifo(journal_of(path))
    with pytest.raises(
        dmf.ProjectFault, match="is a link or not a file, so it is not a journal; move it away"
    ):
        opened(path)
    os.remove(journal_of(path))
    os.mkfifo(tmp_path / "pipe.dmf.json")
    with pytest.raises(OSError, match="it is not a file"):
        opened(str(tmp_path / "pipe.dmf.json"))
    assert Path(path).read_bytes() == before
    desk = water_project(tmp_path)
    desk.close(named(desk, "Bridge pipe"))
    desk.end()
    os.remove(tmp_path / "pipes.csv")
    os.mkfifo(tmp_path / "pipes.csv")
    with dmf.open_project(project_of(desk).file.path) as project:
        assert project.value == 155
        assert project.news[0].startswith(
            "the table 'pipes.csv' is not read, and the network is as it was kept: "
        )


def test_nothing_is_written_before_all_is_judged(tmp_path: Path) -> None:
    """A journal with acts, and a network with a fault, which only a session would find."""
    desk = water_project(tmp_path)
    desk.close(named(desk, "Bridge pipe"))
    left(project_of(desk).file)
    path = Path(project_of(desk).file.path)
    path.write_text(path.read_text().replace("p max 9 14", "p max 9 15"))
    before = files(tmp_path)
    with pytest.raises(
        dmf.ProjectFault, match=r"^/.*kept.dmf.json: network: line \d+: too few arcs$"
    ):
        dmf.open_project(path)
    assert files(tmp_path) == before
    os.remove(journal_of(str(path)))
    with pytest.raises(dmf.ProjectFault, match=r"^/.*kept.dmf.json: network: too few arcs"):
        dmf.open_project(path)


@pytest.mark.parametrize(
    "odd, told",
    [
        ('"1e50"', 'scenarios[0].steps[1].requests[0] has "1e50", which is not a valid amount'),
        (
            f'"0.{"0" * 51}1"',
            f"scenarios[0].steps[1].requests[0]: with the decimals of 0.{'0' * 51}1 the sum of "
            "the capacities would be past",
        ),
        ('"\\ud800"', "scenarios[0].steps[1].requests[0][2] has a lone surrogate"),
        ("9" * 5_000, "scenarios[0].steps[1].requests[0] has"),
    ],
)
def test_statuses(tmp_path: Path, odd: str, told: str) -> None:
    """The tools refuse a project with its place and the status of a fault in what was given."""
    desk = water_project(tmp_path)
    desk.close(named(desk, "Bridge pipe"))
    desk.cap(named(desk, "Mill Lane"), 60)
    desk.end()
    path = Path(project_of(desk).file.path)
    path.write_text(
        path.read_text()
        .replace(']], "60"', f"]], {odd}")
        .replace('"Mill Lane"], "60"]', f'"Mill Lane"], {odd}]')
    )
    before = files(tmp_path)
    ran = run("dmf-plan", str(path), typed="limit\n")
    assert (
        ran.stderr.startswith(f"dmf-plan: {path}: {told}") and ran.stderr.count("\n") == 1
    ), ran.stderr
    assert (ran.returncode, ran.stdout, files(tmp_path)) == (3, "", before)
