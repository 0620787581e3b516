"""The file of a project and its journal: what a kill leaves is what was done but for what was in
hand, and an older version, another project, a second desk and a full disk lose nothing."""

from __future__ import annotations

import errno
import os
import shutil
import time
from dataclasses import replace
from pathlib import Path
from typing import Any

import pytest
from dmf.desk.project import storage as project_file
from dmf.desk.project.journal import journal_of
from dmf.desk.project.records import Scenario
from dmf.desk.project.schema import parse_project, said_scenario, said_step, text_of
from dmf.desk.project.storage import MOST_VERSIONS, created, opened, versions_of
from dmf.desk.project.strict_json import ProjectFault
from dmf.files import write_file
from project_files import STEP, a_project, begun, keep, left, made_project, refused


@pytest.fixture
def path(tmp_path: Path) -> str:
    return made_project(tmp_path)


def test_a_kill_at_each_byte(path: str) -> None:
    """Of a journal that ends anywhere, the acts with an end are there, and the file has them from
    then on."""
    file = begun(path)
    left(file)
    text = Path(journal_of(path)).read_bytes()
    before = Path(path).read_bytes()
    for end in range(len(text) + 1):
        Path(path).write_bytes(before)
        Path(journal_of(path)).write_bytes(text[:end])
        acts = max(text[:end].count(b"\n") - 1, 0)
        again = opened(path)
        assert again.record.project.serial == acts, end
        assert bool(again.news) == (not text[:end].endswith(b"\n") and end > 0), end
        assert parse_project(Path(path).read_bytes()) == again.record.project
        again.end()
        assert not Path(journal_of(path)).exists()


def test_killed_when_the_file_was_written(path: str) -> None:
    """The file is written and the journal still there: no act is done twice."""
    file = begun(path)
    journal = Path(journal_of(path)).read_bytes()
    wanted = text_of(file.record.project)
    file.end()
    Path(journal_of(path)).write_bytes(journal)
    again = opened(path)
    assert text_of(again.record.project) == wanted
    keep(again, "note", "later")
    left(again)
    assert opened(path).record.project.scenario("more") == Scenario("more", note="later")


@pytest.mark.parametrize(
    "line, told",
    [
        (b'{"serial": 1', "line 2: line 1, column 13: the text ends before it is complete"),
        (b'{"serial": 2, "note": "x"}', "line 2: the act has the number 2, and 1 was expected"),
        (
            b'{"serial": 1, "burn": 3}',
            "line 2: burn: 'burn' is not an act on a project",
        ),
        (b'{"serial": 1, "at": 7}', "line 2: at: 7 is not a number of steps from 0 to 2"),
        (b'{"serial": 1, "go": "x"}', "line 2: go: no scenario is called 'x'"),
        (b'{"serial": 1, "delete": "first"}', "line 2: delete: 'first' is the present scenario"),
        (b'{"serial": 1}', "line 2: expected one act in a line, got 0"),
    ],
)
def test_a_faulty_journal(path: str, line: bytes, told: str) -> None:
    """A line that is none is refused with its number, and nothing is written."""
    file = begun(path)
    left(file)
    head, *lines = Path(journal_of(path)).read_bytes().splitlines(True)
    text = b"".join([head, line + b"\n", *lines[1:]])
    Path(journal_of(path)).write_bytes(text)
    before = Path(path).read_bytes()
    assert refused(path) == f"{journal_of(path)}: {told}"
    assert (Path(path).read_bytes(), Path(journal_of(path)).read_bytes()) == (before, text)


def test_not_its_journal(path: str) -> None:
    """A journal of another project, or one that goes on from a newer version, is not taken for this
    one's."""
    older = Path(path).read_bytes()
    begun(path).end()
    file = opened(path)
    keep(file, "note", "later")
    left(file)
    Path(path).write_bytes(older)
    assert (
        "line 1: it goes on from act 3, and the file has 0, so the file is an older version; move "
        "the journal away" in refused(path)
    )
    other = replace(a_project(), identity="cd")
    Path(path).write_bytes(text_of(other))
    assert "line 1: it is the journal of another project" in refused(path)
    os.rename(journal_of(path), path + ".away")
    file = opened(path)
    assert file.record.project == other
    file.end()


def test_versions(path: str) -> None:
    """The file as it was before each of the last sessions stands beside it, and can be put back."""
    texts = []
    for count in range(MOST_VERSIONS + 5):
        texts.append(Path(path).read_bytes())
        file = opened(path)
        keep(file, "notes", str(count))
        file.end()
    kept = versions_of(path)
    assert [Path(it).read_bytes() for it in kept] == texts[-MOST_VERSIONS:]
    shutil.copy(kept[-3], path)
    file = opened(path)
    assert file.record.project.notes == str(MOST_VERSIONS + 1)
    keep(file, "notes", "again")
    file.end()
    assert len(versions_of(path)) == MOST_VERSIONS and parse_project(
        Path(versions_of(path)[-1]).read_bytes()
    ).notes == str(MOST_VERSIONS + 1)


def test_a_clock_that_jumps(path: str, monkeypatch: pytest.MonkeyPatch) -> None:
    """Forwards and back by years, also between two steps: nothing is lost, nobody else is said to
    have written, and the oldest version goes first."""
    clock = [0]

    def written(place: str, data: bytes, **more: bool) -> None:
        write_file(place, data, **more)
        os.utime(place, (clock[0], clock[0]))

    monkeypatch.setattr(project_file, "write_file", written)
    monkeypatch.setattr(time, "time", lambda: float(clock[0]))
    notes: list[str] = []
    for count in range(MOST_VERSIONS + 8):
        # Years from 1970 to 2100, in no order; every fourth time the journal is left behind.
        clock[0] = 86_400 * 365 * (count * 37 % 131)
        file = opened(path)
        assert (
            not file.why_not
            and not file.news
            and file.record.project.notes == (notes[-1] if notes else "for\nMay")
        )
        for at in range(2):
            clock[0] = 86_400 * 365 * (count * 59 % 131)
            notes.append(f"{count}, {at}")
            keep(file, "notes", notes[-1])
        if count % 4:
            file.end()
            assert not file.news
        else:
            left(file)
    opened(path).end()
    kept = [parse_project(Path(it).read_bytes()).notes for it in versions_of(path)]
    assert (
        len(kept) == MOST_VERSIONS
        and kept == sorted(kept, key=notes.index)
        and parse_project(Path(path).read_bytes()).notes == notes[-1]
    )


def test_two_desks(path: str) -> None:
    """The second one reads alone, and sees what the first one has done so far."""
    first = begun(path)
    second = opened(path)
    assert (
        second.why_not == "another desk has it open"
        and second.record.project == first.record.project
    )
    with pytest.raises(OSError):
        keep(second, "note", "mine")
    keep(first, "note", "theirs")
    second.end()
    first.end()
    third = opened(path)
    assert not third.why_not and third.record.project.scenario("more") == Scenario(
        "more", note="theirs"
    )
    third.end()


def test_a_lock_left_behind(path: str) -> None:
    """A journal whose desk is gone does not lock."""
    left(begun(path))
    file = opened(path)
    assert not file.why_not and file.record.project.serial == 3
    file.end()


@pytest.mark.parametrize("call", ["write", "fdatasync"])
def test_a_full_disk(path: str, monkeypatch: pytest.MonkeyPatch, call: str) -> None:
    """What cannot be kept whole is not kept, and what comes after it is."""
    file = begun(path)
    before = Path(journal_of(path)).read_bytes()
    write = os.write

    def full(stream: int, data: bytes = b"") -> int:
        if len(data) > 5:
            return write(stream, data[:5])
        raise OSError(errno.ENOSPC, os.strerror(errno.ENOSPC))

    monkeypatch.setattr(os, call, full)
    with pytest.raises(OSError, match="No space left"):
        keep(file, "step", said_step(STEP))
    monkeypatch.undo()
    assert Path(journal_of(path)).read_bytes() == before and file.record.project.serial == 3
    keep(file, "note", "after it")
    left(file)
    assert opened(path).record.project == file.record.project


def test_the_file_cannot_be_written(path: str, monkeypatch: pytest.MonkeyPatch) -> None:
    """At the end of a desk: the journal has what the file has not, and the next desk takes it."""
    file = begun(path)
    before = Path(path).read_bytes()

    def full(*_: object, **__: object) -> None:
        raise OSError(errno.ENOSPC, os.strerror(errno.ENOSPC))

    monkeypatch.setattr(project_file, "write_file", full)
    with pytest.raises(OSError):
        file.end()
    assert Path(path).read_bytes() == before
    second = opened(path)
    assert (
        second.why_not == "it cannot be written: No space left on device"
        and second.record.project == file.record.project
    )
    assert not versions_of(path)
    monkeypatch.undo()
    again = opened(path)
    assert again.record.project == file.record.project and not again.why_not
    again.end()


def test_no_folder_to_write(path: str, monkeypatch: pytest.MonkeyPatch) -> None:
    """Where no journal can be made, the project can be read."""
    open_file = os.open

    def denied(name: Any, flags: int, *rest: Any) -> int:
        if str(name).endswith(".journal"):
            raise PermissionError(errno.EACCES, os.strerror(errno.EACCES), name)
        return open_file(name, flags, *rest)

    monkeypatch.setattr(os, "open", denied)
    file = opened(path)
    assert file.record.project == a_project() and file.why_not.startswith("it cannot be written: ")
    file.end()


def test_written_by_somebody_else(path: str) -> None:
    """A file that somebody else has written while a desk had it open is kept as a version, and that
    is said."""
    file = begun(path)
    other = replace(a_project(), notes="theirs")
    os.remove(path)
    Path(path).write_bytes(text_of(other))
    file.end()
    assert file.news == [f"somebody else has written {path} meanwhile: that is {path}.~1~ now"]
    assert (
        parse_project(Path(f"{path}.~1~").read_bytes()).notes == "theirs"
        and parse_project(Path(path).read_bytes()) == file.record.project
    )
    again = opened(path)
    keep(again, "notes", "ours")
    again.end()
    assert not again.news


def test_another_journal(path: str) -> None:
    """A journal that lies there is not taken for that of a new project, and stays."""
    left(begun(path))
    text = Path(journal_of(path)).read_bytes()
    os.remove(path)
    with pytest.raises(FileExistsError, match="the journal of another one"):
        created(path, a_project())
    assert Path(journal_of(path)).read_bytes() == text and not Path(path).exists()


def test_what_cannot_be_done(path: str) -> None:
    """It is not in the journal either."""
    file = begun(path)
    before = Path(journal_of(path)).read_bytes()
    for word, content in (
        ("go", "nobody"),
        ("at", 9),
        ("new", said_scenario(Scenario("more"))),
        ("step", {}),
        ("burn", 1),
    ):
        with pytest.raises(ProjectFault):
            keep(file, word, content)
    assert Path(journal_of(path)).read_bytes() == before
    left(file)
    again = opened(path)
    assert again.record.project == file.record.project
    again.end()


def test_no_other_file(path: str) -> None:
    before = Path(path).read_bytes()
    with pytest.raises(FileExistsError):
        created(path, a_project())
    assert Path(path).read_bytes() == before


def test_ten_thousand_steps_and_two_hundred_scenarios(path: str) -> None:
    """What a step writes does not grow with the steps before it; and all are read back."""
    file = opened(path)
    for count in range(200):
        keep(file, "new", said_scenario(Scenario(f"scenario {count}")))
    sizes = []
    for _ in range(10_000):
        before = os.path.getsize(journal_of(path))
        keep(file, "step", said_step(STEP))
        sizes.append(os.path.getsize(journal_of(path)) - before)
    # But for the digits of its number.
    assert max(sizes) - min(sizes) <= 3
    left(file)
    again = opened(path)
    assert (
        again.record.project == file.record.project and len(again.record.project.scenarios) == 202
    )
    again.end()
