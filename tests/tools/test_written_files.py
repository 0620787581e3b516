"""Files that are written whole or not at all, and names that cannot stand in them."""

from __future__ import annotations

import errno
import io
import os
import resource
import shutil
import stat
import subprocess
import sys
import threading
from collections.abc import Iterator
from contextlib import contextmanager
from pathlib import Path

import pytest
from client_shared import CLIENT, dmf
from desk_shared import run
from dmf.desk.board.routes import Board
from dmf.desk.export import problem, table
from dmf.desk.plan.shell import Shell
from dmf.desk.workspace import Desk
from dmf.files import write_file
from dmf.tables.loader import LoadedProblem
from dmf.text.spelling import read_names

LARGE = b"x" * 100_000
PROBLEM = "c node 1 lake\nc node 2 sea\nc arc 1 canal\np max 2 1\nn 1 s\nn 2 t\na 1 2 3\n"


@contextmanager
def room_for(size: int) -> Iterator[None]:
    """Lets no file grow past a size, as a full disk does."""
    limits = resource.getrlimit(resource.RLIMIT_FSIZE)
    resource.setrlimit(resource.RLIMIT_FSIZE, (size, limits[1]))
    try:
        yield
    finally:
        resource.setrlimit(resource.RLIMIT_FSIZE, limits)


def test_a_file_is_whole_or_as_it_was(tmp_path: Path) -> None:
    path = tmp_path / "plan.csv"
    for old in None, b"old":
        if old is not None:
            path.write_bytes(old)
        with room_for(50_000), pytest.raises(OSError, match="File too large"):
            write_file(str(path), LARGE)
        # Nothing is left beside it.
        assert [it.read_bytes() for it in tmp_path.iterdir()] == ([] if old is None else [old])
    write_file(str(path), LARGE)
    assert (path.read_bytes(), [*tmp_path.iterdir()]) == (LARGE, [path])


@pytest.mark.parametrize("call", ["fsync", "replace", "fchmod"])
def test_each_call_that_fails(tmp_path: Path, monkeypatch: pytest.MonkeyPatch, call: str) -> None:
    def fail(*_: object) -> None:
        raise OSError(errno.EIO, os.strerror(errno.EIO))

    path = tmp_path / "plan.csv"
    path.write_bytes(b"old")
    monkeypatch.setattr(os, call, fail)
    with pytest.raises(OSError, match="Input/output error"):
        write_file(str(path), b"new")
    assert [(it, it.read_bytes()) for it in tmp_path.iterdir()] == [(path, b"old")]


def test_a_file_system_that_cannot_sync(tmp_path: Path, monkeypatch: pytest.MonkeyPatch) -> None:
    def fail(*_: object) -> None:
        raise OSError(errno.EINVAL, os.strerror(errno.EINVAL))

    monkeypatch.setattr(os, "fsync", fail)
    write_file(str(tmp_path / "plan.csv"), b"new")
    assert (tmp_path / "plan.csv").read_bytes() == b"new"


def test_modes_and_links(tmp_path: Path) -> None:
    """A file keeps its mode, and a link leads to it still; a new one has the mode of any new
    file."""
    path, link = tmp_path / "plan.csv", tmp_path / "link.csv"
    path.write_bytes(b"old")
    link.symlink_to("plan.csv")
    for mode in 0o600, 0o644, 0o664, 0o400:
        path.chmod(mode)
        write_file(str(link), b"%o" % mode)
        assert (path.read_bytes(), stat.S_IMODE(path.stat().st_mode), link.is_symlink()) == (
            b"%o" % mode,
            mode,
            True,
        )
    old = os.umask(0o027)
    try:
        write_file(str(tmp_path / "new.csv"), b"new")
    finally:
        os.umask(old)
    assert stat.S_IMODE((tmp_path / "new.csv").stat().st_mode) == 0o640


def test_what_can_have_no_file_beside_it(tmp_path: Path) -> None:
    """A pipe, a device, and standard output, whatever that is."""
    os.mkfifo(tmp_path / "pipe")
    found: list[bytes] = []
    reader = threading.Thread(target=lambda: found.append((tmp_path / "pipe").read_bytes()))
    reader.start()
    write_file(str(tmp_path / "pipe"), LARGE)
    reader.join()
    assert (found, [*tmp_path.iterdir()]) == ([LARGE], [tmp_path / "pipe"])
    write_file("/dev/null", LARGE)
    with pytest.raises(OSError, match="No space left on device"):
        write_file("/dev/full", LARGE)
    script = (
        "import sys; sys.path.insert(0, sys.argv[1])\nfrom dmf.tools.command import write; from "
        "dmf.files import write_file\n"
    )
    script += "write('before\\n'); write_file(sys.argv[2], b'here\\n'); write('after\\n')"
    for path in "/dev/stdout", "/dev/fd/1", "/proc/self/fd/1":
        command = [sys.executable, "-c", script, CLIENT, path]
        assert (
            subprocess.run(command, capture_output=True, check=True).stdout
            == b"before\nhere\nafter\n"
        )
        with open(tmp_path / "out", "wb") as out:
            subprocess.run(command, stdout=out, check=True)
        assert (tmp_path / "out").read_bytes() == b"before\nhere\nafter\n"


def test_dmf_plan_saves_again_what_it_could_not_save(
    tmp_path: Path, monkeypatch: pytest.MonkeyPatch
) -> None:
    """The file of a `save` that fails is not there, so that it can be named once more when there is
    room; and one that this session wrote before stays."""
    told = io.StringIO()
    monkeypatch.setattr(sys, "stderr", told)
    desk = Desk(LoadedProblem("a test", PROBLEM.encode()), with_solve=True)
    plan = Shell(desk, is_typed=False, write=lambda text: None)
    path = tmp_path / "plan.csv"
    with room_for(60):
        plan.onecmd(f"save {path}")
    assert (plan.refused, [*tmp_path.iterdir()]) == (1, [])
    plan.onecmd(f"save {path}")
    whole = path.read_text()
    assert whole.splitlines()[1:] == ["1,canal,lake,sea,3,3,yes,yes"]
    plan.onecmd("close canal")
    with room_for(40):
        plan.onecmd(f"save {path}")
    assert (plan.refused, path.read_text(), [*tmp_path.iterdir()]) == (2, whole, [path])
    assert told.getvalue().count("File too large\n") == 2
    desk.end()


HALVES = ["\ud800", "a\udfffb", "\ud83d\ud83d"]


@pytest.mark.parametrize("name", [*HALVES, " a", "a ", "a\nb", "a\r", "\x1b[31m", "x\u2028y", "=a"])
def test_names_of_added_arcs(name: str) -> None:
    """What a desk writes has a name that was given for an arc, or that name escaped. A reader finds
    no line in it."""
    desk = Desk(LoadedProblem("a test", PROBLEM.encode()), with_solve=True)
    desk.add(desk.network.names.place("lake"), desk.network.names.place("sea"), 4, name)
    text = problem(desk).encode()
    nodes, arcs = read_names(text)
    assert nodes == {1: "lake", 2: "sea"}
    assert arcs[1] == "canal"
    wanted = {
        " a": r"\x20a",
        "a ": r"a\x20",
        "a\nb": r"a\x0ab",
        "a\r": r"a\x0d",
        "\ud800": r"\ud800",
        "a\udfffb": r"a\udfffb",
    }
    assert arcs[2] == wanted.get(name, r"\ud83d\ud83d" if name in HALVES else name)
    # Each name is told once, as dmf-dot wants it.
    assert text.count(b"\nc arc 2 ") == 1
    table(desk).encode()
    desk.end()


def test_the_name_of_an_arc_that_is_opened_again() -> None:
    """It is the one that the arc had, and not as it was shown."""
    desk = Desk(
        LoadedProblem("a test", PROBLEM.replace("canal", "ca\rnal\u2028").encode()), with_solve=True
    )
    before = problem(desk)
    desk.close(1)
    desk.open(1)
    assert problem(desk) == before
    assert "ca\rnal\u2028" in before
    desk.end()


@pytest.mark.parametrize("name", HALVES)
def test_names_on_a_board(name: str) -> None:
    """Each of its pages and files has the name, escaped."""
    desk = Desk(LoadedProblem("a test", PROBLEM.encode()), with_solve=True)
    board = Board(desk)
    added = board.post(
        "do",
        {"what": "add", "tail": 1, "head": "sea", "capacity": "4", "name": name, "turn": desk.turn},
    )
    assert added.status == 200
    asked = {"turn": str(desk.turn)}
    words: dict[str, dict[str, str]] = {
        "state": {},
        "plan.csv": asked,
        "problem.max": asked,
        "picture.svg": {**asked, "near": ""},
    }
    for page in "state", "plan.csv", "problem.max", *["picture.svg"] * bool(shutil.which("dot")):
        got = board.get(page, words[page])
        assert (got.status, repr(name)[1:-1].encode() in got.body.replace(rb"\\", b"\\")) == (
            200,
            True,
        ), page
    desk.end()


def test_names_of_networks() -> None:
    """A problem text has names as they are, refuses what it cannot have and names it, or escapes
    that."""
    for name in HALVES:
        with dmf.Network([(name, "b", 1, "k")], name, "b") as network:
            with pytest.raises(dmf.NameNotWritable, match="^name not writable: that of node 1, '"):
                network.problem()
            escaped = network.problem(escapes=True)
            assert read_names(escaped.encode())[0][1] == repr(name)[1:-1]
    # An escaped name may be that of another node.
    with dmf.Network([("\ud800", r"\ud800", 1)], "\ud800", r"\ud800") as network:
        with pytest.raises(dmf.NameNotWritable, match="two nodes are called"):
            network.problem(escapes=True)


def test_what_dmf_plan_saves_is_drawn(tmp_path: Path) -> None:
    """dmf-dot refuses a problem that names one thing twice."""
    (tmp_path / "net.max").write_text(PROBLEM)
    assert (
        run(
            "dmf-plan", str(tmp_path / "net.max"), typed=f"solve\nsave {tmp_path}/plan.max\n"
        ).returncode
        == 0
    )
    assert (tmp_path / "plan.max").read_text() == PROBLEM
    ran = run("dmf-dot", str(tmp_path / "plan.max"))
    assert (ran.returncode, ran.stderr) == (0, "")
