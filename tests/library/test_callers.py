"""Programs in C and Python that call the C library: the examples, and threads with a session each.
test_cpp.py has those in C++."""

from __future__ import annotations

import subprocess
import sys
from pathlib import Path

import pytest
from c_library import ROOT, compiled, header_calls, library_folder
from limits import SECONDS

EXAMPLES = ROOT / "examples/c"
SOLVED = (
    "1 -> 2: 3 of 3\n1 -> 3: 2 of 2\n2 -> 3: 1 of 5\n2 -> 4: 2 of 2\n3 -> 4: 3 of 3\n"
    "without arc 1: 2\nagain: 5\n"
)


@pytest.fixture(scope="module")
def folder() -> Path:
    return library_folder()


def output_of(*words: str | Path) -> str:
    ran = subprocess.run(words, capture_output=True, text=True, timeout=SECONDS)
    assert (ran.returncode, ran.stderr) == (0, "")
    return ran.stdout


@pytest.mark.parametrize("standard", ["-std=c99", "-std=c11"])
def test_the_example_in_c(folder: Path, tmp_path: Path, standard: str) -> None:
    assert output_of(compiled(["gcc", standard], EXAMPLES / "limit.c", folder, tmp_path)) == SOLVED


def test_the_example_in_python(folder: Path) -> None:
    assert (
        output_of(sys.executable, EXAMPLES / "limit.py", folder / "libdmf.so.0")
        == "5 [3, 2, 1, 2, 3]\n"
    )


def test_no_access_is_bad(folder: Path, tmp_path: Path) -> None:
    """All that the example lends and gets is used as it may be, and all is freed."""
    program = compiled(["gcc"], EXAMPLES / "limit.c", folder, tmp_path)
    words = [
        "valgrind",
        "-q",
        "--leak-check=full",
        "--show-leak-kinds=all",
        "--error-exitcode=9",
        str(program),
    ]
    assert output_of(*words) == SOLVED


HELGRIND = ["valgrind", "-q", "--tool=helgrind", "--error-exitcode=9"]


@pytest.mark.seconds(5)
def test_a_session_for_each_thread(folder: Path, tmp_path: Path) -> None:
    """helgrind sees no race between threads with a session each, and sees one as soon as they share
    a session."""
    source = Path(__file__).with_name("threads.c")
    program = compiled(["gcc", "-pthread"], source, folder, tmp_path)
    assert output_of(*HELGRIND, program) == "4\n"
    program = compiled(["gcc", "-pthread", "-DSHARED"], source, folder, tmp_path)
    ran = subprocess.run([*HELGRIND, program], capture_output=True, text=True, timeout=SECONDS)
    assert ran.returncode != 0 and "Possible data race" in ran.stderr
    assert "round_is_right" in ran.stderr


def test_the_names_that_the_library_shows(folder: Path) -> None:
    """Each call of the header is there, under its version, and nothing else; and it needs no
    library but libc."""
    listed = output_of("nm", "-D", "--defined-only", folder / "libdmf.so.0").split()
    shown = {name.removesuffix("@@DMF_0") for name in listed if name.startswith("dmf_")}
    assert shown == set(header_calls())
    assert {
        name
        for name in listed
        if not name.startswith("dmf_") and len(name) > 1 and not name.isalnum()
    } <= {"DMF_0"}
    needed = output_of("readelf", "-d", folder / "libdmf.so.0")
    assert "libdmf.so.0" in needed and needed.count("(NEEDED)") <= 1
