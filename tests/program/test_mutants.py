"""Puts faults into a copy of the program where no proof sees them, builds each, and runs the test
that must fail for it. A build takes minutes, so only `--long` does this; tests/toolchain does it
for WIRINGS. That each fault can still be put in is tried each time."""

from __future__ import annotations

import shutil
import subprocess
from pathlib import Path

import pytest
from conftest import ROOT, shared
from mutants import MUTANTS, WIRINGS, Mutant
from nested import run_pytest

FAILED = 1


@pytest.mark.parametrize("mutant", [pytest.param(it, id=it.name) for it in WIRINGS + MUTANTS])
def test_place(mutant: Mutant) -> None:
    """The text stands once in its file, and the test is there."""
    assert (ROOT / mutant.file).read_text().count(mutant.old) == 1
    path, _, name = mutant.test.partition("::")
    assert f"\ndef {name.partition('[')[0]}(" in (ROOT / path).read_text()


def test_count() -> None:
    assert f"each of {len(WIRINGS)} faulty copies" in (ROOT / "docs" / "TRUST.md").read_text()


@pytest.mark.long
@pytest.mark.seconds(300)
@pytest.mark.parametrize("mutant", [pytest.param(it, id=it.name) for it in MUTANTS])
def test_killed(tmp_path_factory: pytest.TempPathFactory, mutant: Mutant) -> None:
    """In one copy of the repository with what was built, one fault after the other."""
    with shared(tmp_path_factory, "copy") as copy:
        if not copy.exists():
            shutil.copytree(
                ROOT,
                copy,
                symlinks=True,
                ignore=shutil.ignore_patterns(".git", ".hypothesis", ".mypy_cache", "__pycache__"),
            )
        file = copy / mutant.file
        whole = file.read_text()
        file.write_text(whole.replace(mutant.old, mutant.new))
        try:
            judge(copy, mutant.test)
        finally:
            file.write_text(whole)


def judge(copy: Path, test: str) -> None:
    """Builds the program of a copy. The test has to fail there."""
    built = subprocess.run(
        [copy / "dmf", "--version"], stdin=subprocess.DEVNULL, capture_output=True, text=True
    )
    assert built.returncode == 0, built.stderr[-3000:]
    ran = run_pytest(test, folder=copy)
    assert ran.returncode == FAILED, f"{test} passes:\n{ran.stdout[-3000:]}{ran.stderr[-3000:]}"
