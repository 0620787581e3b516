"""Compiles wrong bodies that no proof has to refuse, since the compiler refuses a value that is
used after it was moved. A must-fail edit cannot show this: the gate counts only what is refused at
a goal."""

from __future__ import annotations

import re
import shutil
import subprocess
from pathlib import Path

import pytest
from conftest import ROOT

SECONDS = 600
FILE = "crates/dmf_program/src/words.rt"
RUN = "runner.run(&asked)"


@pytest.mark.seconds(60)
def test_no_task_runs_twice(tmp_path: Path) -> None:
    """A run takes its runner, so `follow` cannot run its task and drop what came of it, and then
    run it again."""
    for name in "crates.txt", "HANDLES":
        shutil.copy(ROOT / name, tmp_path)
    shutil.copytree(
        ROOT / "crates", tmp_path / "crates", ignore=shutil.ignore_patterns("out", "*must-fail")
    )
    text = (ROOT / FILE).read_text()
    assert text.count(RUN) == 1
    (tmp_path / FILE).write_text(text.replace(RUN, f"{{ let _ = {RUN}; {RUN} }}"))
    ran = subprocess.run(
        ["rt", "try", "--", "--version"],
        cwd=tmp_path / "crates" / "dmf",
        stdin=subprocess.DEVNULL,
        stdout=subprocess.PIPE,
        stderr=subprocess.STDOUT,
        text=True,
        timeout=SECONDS,
    )
    complaint = rf"{FILE}:\d+:\d+: error\[borrow-e0382\]: use of moved value: `runner`"
    assert ran.returncode and re.search(complaint, ran.stdout), ran.stdout[-5000:]
