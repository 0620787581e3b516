"""Builds the mutants of `main` and of what it calls, and runs for each the test that must fail. All
stand in one program, built as `rt try` builds it, without a proof: each function of these files
once as it is, and once for each of its mutants. The length of the name by which the program is
called chooses one. So this takes one build, of a minute, and no library has to be proved.

    /usr/bin/python3 -m pytest tests/toolchain
"""

from __future__ import annotations

import contextlib
import os
import re
import shutil
import subprocess
import time
from pathlib import Path

import pytest
from conftest import ROOT
from mutants import WIRINGS, Mutant
from nested import run_pytest

PASSED, FAILED, SECONDS = 0, 1, 600
# The length of the first name of the program, in bytes: by that it has no fault.
SHORTEST = 200
# A function: what stands before its name, its name, its lifetimes, its parameters, and what stands
# before its body.
FUNCTION = re.compile(
    r"^((?:(?:///|#\[)[^\n]*\n)*(?:pub )?)fn (\w+)((?:<[^>]*>)?)\((.*?)\)((?: ->.*?)?\s)"
    r"\{\n.*?^\}\n",
    re.MULTILINE | re.DOTALL,
)
NAME_LENGTH = """
fn name_length(rt: &HostRuntime) -> usize {
    match words(rt) {
        Ok(words) => match words.first() {
            Some(name) => name.len(),
            None => 0,
        },
        Err(_) => 0,
    }
}
"""


def with_copies(file: str, whole: re.Match[str]) -> str:
    """A function that calls a copy of itself for each of its mutants, or one without a fault. One
    without mutants stays."""
    front, name, lifetimes, parameters, result = whole.groups()
    names = re.findall(r"(\w+): ", parameters)
    call = f"({', '.join(names)})"
    mine = [
        (place, it) for place, it in enumerate(WIRINGS, 1) if it.file == file and it.old in whole[0]
    ]
    texts = [(0, whole[0]), *((place, whole[0].replace(it.old, it.new)) for place, it in mine)]
    if not mine:
        return whole[0]
    copies = "".join(
        text.replace(f"fn {name}{lifetimes}(", f"fn {name}_{place}{lifetimes}(")
        for place, text in texts
    )
    choices = "".join(
        f"        {SHORTEST + place} => {name}_{place}{call},\n" for place, _ in texts[1:]
    )
    handle = "rt" if "rt: &" in parameters else "&rt"
    return (
        f"{front}fn {name}{lifetimes}({parameters}){result}{{\n    match name_length({handle}) {{\n"
        f"{choices}        _ => {name}_0{call},\n    }}\n}}\n\n{copies}"
    )


def mutated(file: str, whole: str) -> str:
    """The text of a file with all its mutants. Each changes one function."""
    mine = [mutant for mutant in WIRINGS if mutant.file == file]
    assert all(sum(mutant.old in it[0] for it in FUNCTION.finditer(whole)) == 1 for mutant in mine)
    words = (
        ""
        if re.search(r"^use .*[ {]words[,}]|^    (?:.* )?words,$", whole, re.MULTILINE)
        else "\nuse crate::arguments::words;\n"
    )
    return FUNCTION.sub(lambda it: with_copies(file, it), whole) + words + NAME_LENGTH


@pytest.fixture(scope="module")
def program(tmp_path_factory: pytest.TempPathFactory) -> Path:
    """The program of all copies, as `rt try` builds it, without a proof, to run it once. It keeps
    no file, so another name holds this one."""
    root = tmp_path_factory.mktemp("mutants")
    for name in "crates.txt", "HANDLES":
        shutil.copy(ROOT / name, root)
    shutil.copytree(
        ROOT / "crates", root / "crates", ignore=shutil.ignore_patterns("out", "must-fail")
    )
    crate, own, rooms = root / "crates" / "dmf", root / "program", root / "rooms"
    for file in {mutant.file for mutant in WIRINGS}:
        (root / file).write_text(mutated(file, (ROOT / file).read_text()))
    rooms.mkdir()
    words = ["rt", "try", "--", "--version"]
    with open(root / "said", "w+") as said, subprocess.Popen(
        words, cwd=crate, env={**os.environ, "TMPDIR": str(rooms)}, stdout=said, stderr=said
    ) as running:
        while running.poll() is None:
            hold(rooms, own)
            time.sleep(0.01)
        assert running.returncode == 0 and own.exists(), (root / "said").read_text()[-5000:]
    assert (
        subprocess.run([own, "--version"], capture_output=True, text=True).stdout
        == (root / "said").read_text().partition("call=")[0].splitlines(True)[0]
    )
    return own


def hold(rooms: Path, own: Path) -> None:
    """Gives the program that `rt try` runs a name of our own, once it is there."""
    for file in rooms.rglob("program"):
        if not own.exists() and os.access(file, os.X_OK):
            with contextlib.suppress(FileNotFoundError):
                os.link(file, own)


def tried(program: Path, place: int, *tests: str) -> subprocess.CompletedProcess[str]:
    """Runs tests on the copy at this place."""
    named = program.parent / "x".ljust(SHORTEST + place - len(f"{program.parent}/"), "x")
    if not named.exists():
        named.symlink_to(program)
    return run_pytest(*tests, folder=ROOT, seconds=SECONDS, environment={"DMF_BUILT": str(named)})


def test_unchanged(program: Path) -> None:
    """Each test passes on the copy without a fault."""
    ran = tried(program, 0, *sorted({mutant.test for mutant in WIRINGS}))
    assert ran.returncode == PASSED, ran.stdout + ran.stderr


@pytest.mark.parametrize(
    ("place", "mutant"), [pytest.param(*it, id=it[1].name) for it in enumerate(WIRINGS, 1)]
)
def test_killed(program: Path, place: int, mutant: Mutant) -> None:
    ran = tried(program, place, mutant.test)
    assert ran.returncode == FAILED, f"{mutant.test} passes:\n{ran.stdout}{ran.stderr}"
