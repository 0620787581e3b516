"""What pip installs of clients/python in an empty environment: the package, the executable and the
tools, without a network."""

from __future__ import annotations

import base64
import csv
import hashlib
import os
import re
import shutil
import signal
import subprocess
import sys
import urllib.request
import zipfile
from pathlib import Path
from typing import NamedTuple

import pytest
from built import heed_interrupts
from c_library import library_folder
from client_shared import BUILT, CLIENT, dmf
from conftest import ROOT, shared
from launched import judge_help, judge_streams, judge_words
from limits import SECONDS
from pip_runs import build, call, out, own, pip_install
from trees import copy_tracked

pytestmark = pytest.mark.seconds(10)
TOOLS = sorted(path.name for path in (ROOT / "tools").glob("dmf-*"))
TABLE = str(ROOT / "examples/water/pipes.csv")


@pytest.fixture(scope="session")
def folder(tmp_path_factory: pytest.TempPathFactory) -> Path:
    """A copy of the tree, beside an environment in which it is installed. All workers use the
    same."""
    with shared(tmp_path_factory, "packaged") as path:
        if not path.exists():
            path.mkdir()
            copy_tracked(path / "tree")
            subprocess.run(
                [sys.executable, "-m", "venv", path / "environment"], check=True, timeout=SECONDS
            )
            pip_install(path / "environment", path / "tree/clients/python")
    return path


PROBLEM = (ROOT / "examples/a.max").read_text()
# The flow and the cut of README.md.
SOLUTION = "s 5\nf 1 2 3\nf 1 3 2\nf 2 3 1\nf 2 4 2\nf 3 4 3\n"


def test_the_version_is_the_program_s() -> None:
    told = subprocess.run([BUILT, "--version"], capture_output=True, text=True).stdout
    assert told == f"dmf {dmf.__version__}\n"


def test_the_package(folder: Path) -> None:
    script = """
import dmf, importlib.metadata
told = importlib.metadata.distribution("dmf")
assert (told.version, told.metadata["License"]) == (dmf.__version__, "MIT")
assert any(str(file).endswith("LICENSE") for file in told.files)
assert any(file.name == "py.typed" for file in told.files)
network = dmf.Network([("a", "b", 3)], "a", "b")
print(dmf.program(), dmf.library(), type(network._session).__name__, network.solve().value)
"""
    library = own(folder).with_name("libdmf.so.0")
    assert out(folder, "python", "-c", script) == f"{own(folder)} {library} LibrarySession 3\n"
    assert own(folder).read_bytes() == Path(BUILT).read_bytes()
    assert library.read_bytes() == (library_folder() / "libdmf.so.0").read_bytes()


def test_the_examples_of_the_library(folder: Path) -> None:
    """Each runs by the library that pip put, with the header beside it, as LIBRARY.md says."""
    library = own(folder).with_name("libdmf.so.0")
    assert out(folder, "python", ROOT / "examples/c/limit.py", library) == "5 [3, 2, 1, 2, 3]\n"
    flags = [f"-I{library.parents[1]}/include", library, f"-Wl,-rpath,{library.parent}"]
    out(folder, "gcc", ROOT / "examples/c/limit.c", "-o", folder / "limit", *flags)
    assert out(folder, folder / "limit").endswith("again: 5\n")
    out(folder, "g++", ROOT / "examples/cpp/vital.cpp", "-o", folder / "vital", *flags)
    assert "\narc 1 is closed: 2\n" in out(folder, folder / "vital", given=PROBLEM)


@pytest.mark.parametrize("words", [["dmf"], ["python", "-m", "dmf"]], ids=["command", "module"])
def test_the_program(folder: Path, words: list[str]) -> None:
    """Its output, its status, and that it is the process which the caller began, and heeds each
    signal."""
    assert out(folder, *words, given=PROBLEM) == SOLUTION
    assert out(folder, *words, "solve", "--cut", given=PROBLEM) == f"{SOLUTION}c cut 5\nc side 1\n"
    ran, plain = (call(folder, *which, "check", "/nowhere") for which in (words, [BUILT]))
    assert (ran.returncode, ran.stdout, ran.stderr) == (
        plain.returncode,
        plain.stdout,
        plain.stderr,
    )
    session = judge_session(folder, folder / "environment/bin" / words[0], *words[1:])
    assert session == Session(str(own(folder)), judge_session(folder, BUILT).ignored)


class Session(NamedTuple):
    """What the system knows of a process: its executable, and the signals that it ignores."""

    executable: str
    ignored: str


def judge_session(folder: Path, *words: object) -> Session:
    """Looks at a session that a command began, which has to be the process that its caller began,
    and to heed each signal."""
    variables = {"PATH": "/usr/bin:/bin", "HOME": str(folder)}
    session = [*map(str, words), "session", str(ROOT / "examples/a.max")]
    with subprocess.Popen(
        session, env=variables, stdin=subprocess.PIPE, stdout=subprocess.PIPE, text=True
    ) as running:
        assert running.stdin and running.stdout
        running.stdin.write("cap 5 1\n")
        running.stdin.flush()
        assert running.stdout.readline() == "c cap value 0\n"
        status = Path(f"/proc/{running.pid}/status").read_text()
        found = Session(
            os.readlink(f"/proc/{running.pid}/exe"),
            *re.findall(r"^SigIgn:\s(\w+)$", status, re.MULTILINE),
        )
        running.send_signal(signal.SIGTERM)
    assert running.returncode == -signal.SIGTERM
    return found


def test_the_command(folder: Path) -> None:
    """All that is not a tool's is the program's."""
    launcher = folder / "environment/bin/dmf"
    judge_words(launcher, own(folder))
    judge_help(launcher, own(folder))
    judge_streams(launcher, own(folder))


def test_the_module(folder: Path) -> None:
    """`python -m dmf` runs the tools and prints the texts too."""
    module = [folder / "environment/bin/python", "-m", "dmf"]
    for words in ["help"], ["-h"], ["help", "tables"], ["plan", "--help"], ["help", "names"]:
        assert out(folder, *module, *words) == out(folder, "dmf", *words)
    for words in ["plan", "/nowhere"], ["names"]:
        told, plain = call(folder, *module, *words), call(folder, "dmf", *words)
        assert (told.returncode, told.stdout) == (plain.returncode, plain.stdout)
        assert told.stderr == plain.stderr and told.returncode


@pytest.mark.parametrize("tool", TOOLS)
def test_help(folder: Path, tool: str) -> None:
    plain = out(folder, tool, "--help")
    assert plain.startswith("usage: ")
    assert plain == out(folder, "dmf", tool.removeprefix("dmf-"), "--help")
    assert os.access(folder / "environment/bin" / tool, os.X_OK)


def test_tools(folder: Path) -> None:
    """A table is solved and told by its names, planned and swept."""
    table = "Lake,Mill,3\nLake,Town,2\nMill,Town,5\nMill,Sea,2\nTown,Sea,3\n"
    problem = out(folder, "dmf-problem", "Lake", "Sea", given=table)
    (folder / "problem.max").write_text(problem)
    script = "dmf-problem Lake Sea | dmf | dmf-names problem.max"
    assert out(folder, "sh", "-c", script, given=table).startswith(
        "value 5\n  1 Lake -> Mill: 3 of 3\n"
    )
    assert out(folder, "dmf-dot", "problem.max").startswith("digraph dmf {\n")
    # Without the arc from Lake to Mill 2 is left, without that from Town to Sea 2, and without the
    # others 3, 5 and 3.
    swept = csv.DictReader(out(folder, "dmf-sweep", "problem.max", "--close-each").splitlines())
    assert [row["value"] for row in swept] == ["2", "3", "4", "3", "2"]
    assert out(folder, "dmf-plan", TABLE, "Reservoir", "Harbour", given="solve\n").startswith(
        "value 165 "
    )


def test_board(folder: Path) -> None:
    environment = {"PATH": f"{folder}/environment/bin:/usr/bin:/bin", "HOME": str(folder)}
    words = [f"{folder}/environment/bin/dmf-board", "--no-browser", TABLE, "Reservoir", "Harbour"]
    board = subprocess.Popen(
        words, env=environment, stdout=subprocess.PIPE, text=True, preexec_fn=heed_interrupts
    )
    try:
        assert board.stdout
        address = board.stdout.readline().strip()
        files = sorted(
            file.name for file in (ROOT / "clients/python/dmf/desk/board/page").iterdir()
        )
        assert {"index.html", "main.js", "style.css"} <= {*files}
        for name in "", *files:
            with urllib.request.urlopen(address + name, timeout=SECONDS) as page:
                assert (page.status, page.read()) == (
                    200,
                    (
                        ROOT / "clients/python/dmf/desk/board/page" / (name or "index.html")
                    ).read_bytes(),
                )
        board.send_signal(signal.SIGINT)
        assert board.wait(SECONDS) == 130
    finally:
        board.kill()
        board.communicate()


@pytest.fixture(scope="module")
def wheel(folder: Path, tmp_path_factory: pytest.TempPathFactory) -> Path:
    target = tmp_path_factory.mktemp("wheel")
    name = build(folder / "tree/clients/python", target).stdout.strip()
    assert [*target.iterdir()] == [target / name]
    return target / name


def test_the_tag(wheel: Path) -> None:
    """It names the oldest glibc that has all symbols of the executable, as the tools of the system
    tell."""
    told = subprocess.run(
        ["objdump", "-p", BUILT], capture_output=True, text=True, check=True
    ).stdout
    minor = max(int(it) for it in re.findall(r"GLIBC_2\.(\d+)", told))
    tag = f"py3-none-manylinux_2_{minor}_{os.uname().machine}"
    assert wheel.name == f"dmf-{dmf.__version__}-{tag}.whl"
    with zipfile.ZipFile(wheel) as archive:
        about = archive.read(f"dmf-{dmf.__version__}.dist-info/WHEEL").decode()
    assert f"\nRoot-Is-Purelib: false\nTag: {tag}\n" in about


def test_the_record(wheel: Path) -> None:
    """It has each file, with its sum; and what is run has the mode for that."""
    with zipfile.ZipFile(wheel) as archive:
        names = archive.namelist()
        record = f"dmf-{dmf.__version__}.dist-info/RECORD"
        rows = [*csv.reader(archive.read(record).decode().splitlines())]
        assert [row[0] for row in rows] == names and rows[-1] == [record, "", ""]
        for name, told, size in rows[:-1]:
            content = archive.read(name)
            digest = (
                base64.urlsafe_b64encode(hashlib.sha256(content).digest()).rstrip(b"=").decode()
            )
            assert (told, int(size)) == (f"sha256={digest}", len(content))
        runs = {
            info.filename for info in archive.infolist() if info.external_attr >> 16 == 0o100755
        }
        scripts = f"dmf-{dmf.__version__}.data/scripts"
        assert runs == {"dmf/bin/dmf", f"{scripts}/dmf", *(f"{scripts}/{tool}" for tool in TOOLS)}
        for tool in TOOLS:
            first, rest = archive.read(f"{scripts}/{tool}").split(b"\n", 1)
            assert (
                first == b"#!python"
                and rest == (ROOT / "tools" / tool).read_bytes().split(b"\n", 1)[1]
            )


def test_the_same_twice(wheel: Path, tmp_path: Path) -> None:
    """From another folder, at another time."""
    copy_tracked(tmp_path / "tree")
    again = build(tmp_path / "tree/clients/python", tmp_path / "wheel").stdout.strip()
    assert (tmp_path / "wheel" / again).read_bytes() == wheel.read_bytes()


def test_the_source_archive(folder: Path, wheel: Path, tmp_path: Path) -> None:
    """It has the executable, and gives the same wheel, also outside the repository; where its
    program cannot run, it says so."""
    names = [
        build(folder / "tree/clients/python", tmp_path / place, "build_sdist").stdout.strip()
        for place in ("a", "b")
    ]
    assert names == [f"dmf-{dmf.__version__}.tar.gz"] * 2
    assert (tmp_path / "a" / names[0]).read_bytes() == (tmp_path / "b" / names[1]).read_bytes()
    subprocess.run(["tar", "-xf", tmp_path / "a" / names[0], "-C", tmp_path], check=True)
    unpacked = tmp_path / f"dmf-{dmf.__version__}"
    again = build(unpacked, tmp_path / "wheel").stdout.strip()
    assert (tmp_path / "wheel" / again).read_bytes() == wheel.read_bytes()
    (unpacked / "dmf/bin/dmf").write_text("for another processor\n")
    judge_pure(build(unpacked, tmp_path / "pure"), tmp_path / "pure")


def judge_pure(built: subprocess.CompletedProcess[str], target: Path) -> None:
    """A wheel without the program says that it has none, and is for each system."""
    assert built.stdout == f"dmf-{dmf.__version__}-py3-none-any.whl\n"
    assert (
        built.stderr.splitlines()[-1]
        == "dmf: no program runs on this machine, so what is built has none"
    )
    with zipfile.ZipFile(target / built.stdout.strip()) as archive:
        names = archive.namelist()
        assert (
            "\nRoot-Is-Purelib: true\nTag: py3-none-any\n"
            in archive.read(f"dmf-{dmf.__version__}.dist-info/WHEEL").decode()
        )
    assert not any(name.endswith("/dmf") for name in names) and any(
        name.endswith("/dmf-plan") for name in names
    )


def test_without_the_program(folder: Path, tmp_path: Path) -> None:
    """Where it cannot be built, or is of another version than the package. What pip installs then
    says what is missing."""
    tree = tmp_path / "tree"
    copy_tracked(tree)
    (tree / "dmf").write_text("#!/bin/sh\necho no rt >&2\nexit 70\n")
    judge_pure(build(tree / "clients/python", tmp_path / "none"), tmp_path / "none")
    (tree / "dmf").write_text("#!/bin/sh\necho dmf 0.0.9\n")
    judge_pure(build(tree / "clients/python", tmp_path / "old"), tmp_path / "old")
    (name,) = (tmp_path / "none").iterdir()
    pip_install(folder / "environment", "--target", tmp_path / "pure", name)
    variables = {"PYTHONPATH": str(tmp_path / "pure"), "PATH": ""}
    ran = subprocess.run(
        [sys.executable, "-m", "dmf"],
        env=variables,
        capture_output=True,
        text=True,
        timeout=SECONDS,
    )
    assert (ran.returncode, ran.stdout) == (70, "") and ran.stderr.startswith(
        "dmf: no program dmf was found: "
    )


def test_a_repository_that_cannot_be_written(wheel: Path, tmp_path: Path) -> None:
    """The executable and the library are where tools/prebuilt puts them then."""
    copy_tracked(tmp_path / "tree")
    elsewhere = (tmp_path / "tree/crates/dmf/out/dmf").rename(tmp_path / "a program")
    take = (
        f'case $1 in take) echo "{elsewhere}" ;; library) echo "{library_folder()}/libdmf.so.0" ;; '
        "esac"
    )
    for script, text in ("dmf", f'exec "{elsewhere}" "$@"'), ("tools/prebuilt", take):
        (tmp_path / "tree" / script).write_text(f"#!/bin/sh\n{text}\n")
    name = build(tmp_path / "tree/clients/python", tmp_path / "wheel").stdout.strip()
    assert (tmp_path / "wheel" / name).read_bytes() == wheel.read_bytes()


def test_out_of_its_repository(tmp_path: Path) -> None:
    """As pip before 21.3 copies it."""
    shutil.copytree(CLIENT, tmp_path / "copied", ignore=shutil.ignore_patterns("__pycache__"))
    built = build(tmp_path / "copied", tmp_path / "wheel", check=False)
    assert (
        built.returncode
        and "is not in its repository; pip before 21.3 builds it there with "
        "--use-feature=in-tree-build" in built.stderr
    )
