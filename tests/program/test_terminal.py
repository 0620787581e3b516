"""What the built program says on a terminal beyond its fixed texts: a line that explains a fault, a
refusal or wrong words, and that a problem is read from the keyboard. The terminal is a pseudo
terminal. Each run is made without one too, where standard error has the fixed text and nothing
more."""

from __future__ import annotations

import os
import subprocess
from collections.abc import Iterator
from pathlib import Path

import pytest
from conftest import BUILT, ROOT
from limits import SECONDS
from terminal_numbers import NUMBERS
from terminal_rows import PROBLEMS
from terminal_sessions import HELP, INVITATION, NETWORK, OPENING, SESSION, SOLVED, WORDS, Words
from terminal_solutions import SOLUTIONS
from terminal_texts import Text
from terminals import Terminal, typed, with_terminal, without_terminal


@pytest.fixture(scope="module")
def folder(tmp_path_factory: pytest.TempPathFactory) -> Path:
    """A folder with a problem with names, and with a folder."""
    folder = tmp_path_factory.mktemp("terminal")
    (folder / "named.max").write_bytes(NETWORK)
    (folder / "folder").mkdir()
    return folder


@pytest.fixture(autouse=True)
def inside(folder: Path) -> Iterator[None]:
    os.chdir(folder)
    yield
    os.chdir(ROOT)


def fixed(row: Text) -> str:
    """What standard error has in each case."""
    return f"dmf: {row.fault}\n" if row.fault else ""


@pytest.mark.parametrize("row", [pytest.param(it, id=it.name) for it in PROBLEMS + NUMBERS])
def test_problem(row: Text) -> None:
    """A problem: on standard input as a file and as a pipe, and as the file of a session and of a
    check."""
    Path("net.max").write_bytes(row.text)
    status = 3 if row.fault else 0
    with open("net.max", "rb") as file:
        silent = without_terminal(["solve"], file)
    written = silent[1]
    assert (silent[0], written.decode().partition("\n")[0], silent[2]) == (
        status,
        row.first,
        fixed(row),
    )
    assert without_terminal(["solve"], row.text) == silent
    with open("net.max", "rb") as file:
        assert with_terminal(["solve"], file) == (status, written, fixed(row) + row.said("net.max"))
    assert with_terminal(["solve"], row.text) == (status, written, fixed(row) + row.said(None))
    if row.fault:
        assert with_terminal(["session", "net.max"], b"") == (
            status,
            b"",
            fixed(row) + row.said("net.max"),
        )
        assert with_terminal(["check", "net.max"], b"") == (
            status,
            b"",
            fixed(row) + row.said("in the problem net.max"),
        )


@pytest.mark.parametrize("row", [pytest.param(it, id=it.name) for it in SOLUTIONS])
def test_solution(row: Text) -> None:
    """A solution of the network, as a file and as a pipe."""
    Path("net.sol").write_bytes(row.text)
    with open("net.sol", "rb") as file:
        assert without_terminal(["check", "named.max"], file) == (3, b"", fixed(row))
    with open("net.sol", "rb") as file:
        told = with_terminal(["check", "named.max"], file)
    assert told == (3, b"", fixed(row) + row.said("in the solution net.sol"))
    assert with_terminal(["check", "named.max"], row.text) == (
        3,
        b"",
        fixed(row) + row.said("in the solution, line"),
    )


@pytest.mark.parametrize("row", [pytest.param(it, id=it.words) for it in [*WORDS, *OPENING]])
def test_words(row: Words) -> None:
    """Words that are refused, and what may have been meant."""
    status, written, told = without_terminal(row.words.split(), b"")
    assert status == row.status and (row.meant == "" or row.meant not in told)
    assert with_terminal(row.words.split(), b"") == (row.status, written, told + row.meant)


def test_folder() -> None:
    """A solve that reads from a folder."""
    with Terminal() as terminal:
        folder = os.open("folder", os.O_RDONLY)
        ran = subprocess.run([BUILT, "solve"], stdin=folder, stderr=terminal.end, timeout=SECONDS)
        os.close(folder)
        assert (ran.returncode, terminal.close()) == (4, "dmf: read failed\nfolder is a folder\n")


def test_file_from_its_middle() -> None:
    """A text of which a part was read before: what stands in the file at that line is not what has
    the fault."""
    front = b"c one line more\n"
    Path("front.max").write_bytes(front + NETWORK + b"a x y z\n")
    with open("front.max", "rb") as file:
        os.lseek(file.fileno(), len(front), os.SEEK_SET)
        _, _, told = with_terminal([], file)
    line = len(NETWORK.splitlines()) + 1
    assert told.splitlines()[1:] == [
        f"line {line}: there are more a lines than ARCS of the problem line says"
    ]


def test_session() -> None:
    """Line by line."""
    replies = "".join(reply for _, reply, _ in SESSION).encode()
    commands = b"".join(line + b"\n" for line, _, _ in SESSION)
    assert without_terminal(["session", "named.max"], commands) == (1, replies, "")
    assert with_terminal(["session", "named.max"], commands) == (
        1,
        replies,
        "".join(said for _, _, said in SESSION),
    )


@pytest.mark.seconds(3)
def test_typed_session() -> None:
    short = SESSION[:7]
    shown = "".join(reply + said for _, reply, said in short)
    assert typed(["session", "named.max"], [line + b"\n" for line, _, _ in short], 0.2) == (
        1,
        shown,
    )


def test_changed_problem() -> None:
    """The names of a problem that is changed while the session runs do not appear."""
    changing = Path("changing.max")
    changing.write_bytes(NETWORK)
    with Terminal() as terminal:
        running = subprocess.Popen(
            [BUILT, "session", changing],
            stdin=subprocess.PIPE,
            stdout=subprocess.PIPE,
            stderr=terminal.end,
        )
        assert running.stdin and running.stdout
        running.stdin.write(b"undo\n")
        running.stdin.flush()
        running.stdout.readline()
        changing.write_bytes(NETWORK.replace(b"c arc 2 Tunnel\n", b"c arc 2 A tunnel\n"))
        running.communicate(b"close Tunnel\n", timeout=SECONDS)
        told = terminal.close().splitlines()
    assert told[1:] == [
        "dmf: 'Tunnel' is no number: arcs go by number here, from 1 in the order of the problem"
    ]


@pytest.mark.parametrize("words", [[], ["solve"]])
def test_typed_problem(words: list[str]) -> None:
    assert typed(words, [NETWORK]) == (0, INVITATION + SOLVED)


def test_input_alone() -> None:
    """Only standard input is a terminal."""
    with Terminal() as terminal:
        running = subprocess.Popen(
            [BUILT], stdin=terminal.end, stdout=subprocess.PIPE, stderr=subprocess.PIPE
        )
        terminal.type(NETWORK + b"\x04")
        out, told = running.communicate(timeout=SECONDS)
    assert (out.decode(), told) == (SOLVED, b"")


@pytest.mark.parametrize("words", HELP)
def test_help(tmp_path: Path, monkeypatch: pytest.MonkeyPatch, words: str) -> None:
    """On a terminal the help speaks of the manual page where there is one."""
    sentence = "man dmf has the formats.\n"
    whole = without_terminal(words.split(), b"")[1].decode()
    assert whole.endswith(sentence)
    if not any(os.path.exists(f"/usr{local}/share/man/man1/dmf.1") for local in ("", "/local")):
        assert typed(words.split(), []) == (0, whole.removesuffix(sentence).rstrip() + "\n")
    (tmp_path / "man1").mkdir()
    (tmp_path / "man1" / "dmf.1").write_bytes(b"")
    monkeypatch.setenv("MANPATH", str(tmp_path))
    assert typed(words.split(), []) == (0, whole)
