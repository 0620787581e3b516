"""Problems' files that `dmf.read` takes: odd lines, paths of all kinds, and what is no regular
file."""

from __future__ import annotations

import os
import subprocess
import sys
import threading
from pathlib import Path
from typing import Any

import pytest
from client_shared import CLIENT, dmf, written
from limits import SECONDS

TEXT = b"c node 1 lake\nc node 2 sea\nc arc 1 the canal\np max 2 1\nn 1 s\nn 2 t\na 1 2 7\n"


def test_lines_end_at_line_feeds_alone() -> None:
    for end in "\r", "\x0b", "\x0c", "\x1c", "\x85", "\u2028":
        forged = f"c said: {end}c arc 1 forged{end}c node 2 forged\n".encode()
        with written(forged + TEXT) as path, dmf.read(path) as network:
            assert (network.nodes, network.arcs[0].key) == (["lake", "sea"], "the canal")
        with written(TEXT + forged) as path, dmf.read(path) as network:
            assert (network.nodes, network.arcs[0].key) == (["lake", "sea"], "the canal")


def test_carriage_returns_before_line_feeds() -> None:
    with written(TEXT.replace(b"\n", b"\r\n")) as path, dmf.read(path) as network:
        assert (network.nodes, network.capacity("the canal")) == (["lake", "sea"], 7)


def test_long_numbers_in_comments() -> None:
    digits = b"9" * 5000
    text = b"".join(
        b"c %s %s x\nc node 1 %s\n" % (kind, digits, digits) for kind in (b"node", b"arc")
    )
    with written(TEXT + text) as path, dmf.read(path) as network:
        assert network.nodes == ["9" * 5000, "sea"]
    with written(TEXT + b"c node %s1 pond\n" % (b"0" * 5000)) as path, dmf.read(path) as network:
        assert network.nodes == ["pond", "sea"]


def test_names_of_what_is_not_there() -> None:
    """They name nothing, and take no name away from a node."""
    with written(TEXT + b"c node 0 sea\nc node 3 lake\nc arc 2 x\nc arc 0 y\n") as path, dmf.read(
        path
    ) as network:
        assert (network.nodes, network.arcs[0].key) == (["lake", "sea"], "the canal")


def test_names_that_are_no_utf_8() -> None:
    with written(TEXT + b"c node 1 M\xfchle\n") as path, dmf.read(path) as network:
        assert network.nodes == ["M\ufffdhle", "sea"]


def hold(path: str | bytes | Path) -> None:
    with dmf.read(path) as network:
        assert (network.nodes, network.solve().value) == (["lake", "sea"], 7)


def test_paths_of_all_kinds(tmp_path: Path) -> None:
    for name in "plain.max", "-odd.max", "blank name\n.max", "ß.max":
        path = f"{tmp_path}/{name}"
        Path(path).write_bytes(TEXT)
        forms: list[str | bytes | Path] = [path, os.fsencode(path), Path(path)]
        for form in forms:
            hold(form)


def test_a_path_that_is_not_utf_8(tmp_path: Path) -> None:
    path = os.fsencode(tmp_path) + b"/\xff.max"
    with open(path, "wb") as file:
        file.write(TEXT)
    hold(path)
    hold(os.fsdecode(path))


def test_a_pipe_is_read_once(tmp_path: Path) -> None:
    path = f"{tmp_path}/pipe"
    os.mkfifo(path)
    writer = threading.Thread(target=lambda: Path(path).write_bytes(TEXT), daemon=True)
    writer.start()
    hold(path)
    writer.join()


def test_the_end_of_a_pipe() -> None:
    """As bash gives it: dmf.read('/dev/fd/5')."""
    read, write = os.pipe()
    os.write(write, TEXT)
    os.close(write)
    hold(f"/dev/fd/{read}")
    os.close(read)


def test_standard_input() -> None:
    """Also where it is a file: to the program, standard input is something else."""
    script = (
        "import dmf; network = dmf.read('/dev/stdin'); print(network.solve().value, network.nodes)"
    )
    environment = {**os.environ, "PYTHONPATH": CLIENT}
    with written(TEXT) as path, open(path) as file:
        cases: list[dict[str, Any]] = [{"stdin": file}, {"input": TEXT.decode()}]
        for given in cases:
            words = [sys.executable, "-c", script]
            ran = subprocess.run(
                words, env=environment, capture_output=True, text=True, timeout=SECONDS, **given
            )
            assert (ran.stdout, ran.stderr) == ("7 ['lake', 'sea']\n", "")


def test_an_open_file() -> None:
    with written(TEXT) as path, open(path) as file:
        hold(f"/dev/fd/{file.fileno()}")


def test_faults_of_a_pipe_have_their_lines() -> None:
    read, write = os.pipe()
    os.write(write, TEXT + b"a 1 2 8\n")
    os.close(write)
    with pytest.raises(dmf.TooManyArcs) as caught:
        dmf.read(f"/dev/fd/{read}")
    assert (caught.value.line, str(caught.value)) == (8, "too many arcs: line 8 of the problem")
    os.close(read)


def test_no_file(tmp_path: Path) -> None:
    forms: list[str | bytes | Path] = [tmp_path, os.fsencode(tmp_path), Path(tmp_path)]
    for form in forms:
        with pytest.raises(IsADirectoryError):
            dmf.read(form)
    with pytest.raises(FileNotFoundError):
        dmf.read(f"{tmp_path}/missing.max")
    with pytest.raises(dmf.ProblemLineExpected):
        dmf.read("/dev/null")
