"""Which library the package takes for sessions in this process, and what it says of one that cannot
be used."""

from __future__ import annotations

import ctypes
import os
import re
import shutil
import subprocess
import sys
from pathlib import Path

import pytest
from c_library import library_file
from client_shared import BUILT, CLIENT, dmf, environment, pipes
from dmf.session import library as loaded
from dmf.session.process import ProgramSession
from limits import SECONDS

SILENT = """
import sys
begun = []
PROCESSES = "subprocess.Popen", "os.fork", "os.posix_spawn", "os.exec"
sys.addaudithook(lambda event, _: begun.append(event) if event in PROCESSES else None)
import dmf
network = dmf.Network([("a", "b", 3), ("b", "c", 2)], "a", "c")
print(network.solve().value, dmf.value({"a": {"b": 3}, "b": {"c": 2}}, "a", "c"), begun)
UNWANTED = "dataclasses", "decimal", "heapq", "inspect", "numpy", "queue", "subprocess", "tempfile"
OWN = "dmf.graph_flows", "dmf.unbounded_arcs"
print({*UNWANTED, *OWN, "threading"} & {*sys.modules})
"""
pytestmark = pytest.mark.usefixtures("by_library")


def test_which_is_taken(monkeypatch: pytest.MonkeyPatch) -> None:
    with pipes() as network:
        assert (
            isinstance(network._session, loaded.LibrarySession) and dmf.library() == library_file()
        )
    with pipes(program=BUILT) as network:
        assert isinstance(network._session, ProgramSession)
    monkeypatch.setenv("DMF_LIBRARY", "")
    with pipes() as network:
        assert isinstance(network._session, ProgramSession) and dmf.library() is None
    monkeypatch.delenv("DMF_LIBRARY")
    # The tests name a program by DMF.
    assert dmf.library() is None
    monkeypatch.delenv("DMF")
    found = dmf.library()
    assert found is not None and Path(found).read_bytes() == Path(library_file()).read_bytes()


class OtherLibrary:
    """A library that answers two numbers."""

    def __init__(self, version: int, interface: int) -> None:
        self.dmf_version = lambda: version
        self.dmf_abi = lambda: interface


@pytest.mark.parametrize(
    "version, interface, told",
    [
        (100, 0, "is dmf 0.1.0; this package is dmf 0.2.4, and needs 0.2.x"),
        (300, 0, "is dmf 0.3.0; this package is dmf 0.2.4, and needs 0.2.x"),
        (10_204, 0, "is dmf 1.2.4; this package is dmf 0.2.4, and needs 0.2.x"),
        (201, 1, "has the interface 1, and this package needs 0"),
    ],
)
def test_other_libraries(
    monkeypatch: pytest.MonkeyPatch, version: int, interface: int, told: str
) -> None:
    monkeypatch.setattr(dmf, "__version__", "0.2.4")
    monkeypatch.setattr(ctypes, "CDLL", lambda path: OtherLibrary(version, interface))
    monkeypatch.setenv("DMF_LIBRARY", "/there/libdmf.so.0")
    loaded.load.cache_clear()
    with pytest.raises(dmf.NoProgram) as caught:
        pipes()
    assert str(caught.value) == f"/there/libdmf.so.0 {told}"
    loaded.load.cache_clear()


def test_one_that_cannot_be_used(monkeypatch: pytest.MonkeyPatch, tmp_path: Path) -> None:
    """One that is named, and cannot be loaded, is told; so is one of another version, here the
    library with another number."""
    missing, text = tmp_path / "missing.so", tmp_path / "text.so"
    text.write_text("no library\n")
    for path in missing, text:
        monkeypatch.setenv("DMF_LIBRARY", str(path))
        with pytest.raises(dmf.NoProgram, match=f"^{re.escape(str(path))} cannot be loaded: "):
            pipes()
        with pytest.raises(dmf.NoProgram):
            dmf.library()
    monkeypatch.setenv("DMF_LIBRARY", library_file())
    release = dmf.__version__
    monkeypatch.setattr(dmf, "__version__", "7.8.9")
    loaded.load.cache_clear()
    with pytest.raises(
        dmf.NoProgram,
        match=rf" is dmf {re.escape(release)}; this package is dmf 7\.8\.9, and needs 7\.8\.x$",
    ):
        pipes()


def test_one_that_is_found_and_cannot_be_used(tmp_path: Path) -> None:
    """Inside the package, as pip puts it: the program is asked in its place."""
    shutil.copytree(f"{CLIENT}/dmf", tmp_path / "dmf")
    (tmp_path / "dmf/bin").mkdir()
    (tmp_path / "dmf/bin/libdmf.so.0").write_text("of another machine\n")
    ask = "import dmf; print(dmf.library(), dmf.Network([('a', 'b', 1)], 'a', 'b').solve().value)"
    variables = {
        name: value
        for name, value in environment(PYTHONPATH=str(tmp_path)).items()
        if name not in ("DMF", "DMF_LIBRARY")
    }
    path = f"{Path(BUILT).parent}:{variables['PATH']}"
    variables["PATH"] = path
    ran = subprocess.run(
        [sys.executable, "-c", ask],
        env=variables,
        capture_output=True,
        text=True,
        cwd=tmp_path,
        timeout=SECONDS,
    )
    assert (ran.stdout, ran.stderr) == ("None 1\n", "")


@pytest.mark.parametrize(
    "changed", ["crates/dmf_c/src/lib.rt", "crates/low/src", "crates.txt", "tools/dmf.map"]
)
def test_one_of_a_repository(tmp_path: Path, changed: str) -> None:
    """It is taken unless the code is newer; definitions and proofs are not in it. Here nothing can
    unpack another one."""
    shutil.copytree(f"{CLIENT}/dmf", tmp_path / "clients/python/dmf")
    library = tmp_path / "crates/dmf_c/out/libdmf.so.0"
    library.parent.mkdir(parents=True)
    proof, code = tmp_path / "crates/dmf_c/proofs/lib.antt", tmp_path / "crates/dmf_c/src/lib.rt"
    for file in proof, code, tmp_path / "crates.txt", tmp_path / "tools/dmf.map":
        file.parent.mkdir(parents=True, exist_ok=True)
        file.touch()
    (tmp_path / "crates/low/src").mkdir(parents=True)
    shutil.copy(library_file(), library)
    later = library.stat().st_mtime + 3_600
    variables = environment(PYTHONPATH=str(tmp_path / "clients/python"))
    for name in "DMF", "DMF_LIBRARY":
        variables.pop(name, None)
    found = []
    changes: list[list[Path]] = [[], [proof], [tmp_path / changed]]
    for newer in changes:
        for file in newer:
            os.utime(file, (later, later))
        ran = subprocess.run(
            [sys.executable, "-c", "import dmf; print(dmf.library())"],
            env=variables,
            capture_output=True,
            text=True,
            timeout=SECONDS,
        )
        found.append(ran.stdout + ran.stderr)
    assert found == [f"{library}\n", f"{library}\n", "None\n"]


def test_no_process_is_begun() -> None:
    """Nor is loaded what other calls need, which takes longer than all else together."""
    ran = subprocess.run(
        [sys.executable, "-c", SILENT],
        env=environment(),
        capture_output=True,
        text=True,
        timeout=SECONDS,
    )
    assert (ran.stdout, ran.stderr) == ("2 2 []\nset()\n", "")
