"""Copies of the tree, as git tracks it."""

from __future__ import annotations

import shutil
import subprocess
from pathlib import Path

from built import BUILT
from sources import LISTED, ROOT


def copy_tracked(folder: Path) -> None:
    """Copies the files that git tracks, and beside them the program that was built of them."""
    names = subprocess.run(
        LISTED, cwd=ROOT, capture_output=True, text=True, check=True
    ).stdout.split("\0")
    for name in {*names} - {""}:
        if (ROOT / name).is_file():
            (folder / name).parent.mkdir(parents=True, exist_ok=True)
            shutil.copy2(ROOT / name, folder / name)
    (folder / "crates/dmf/out").mkdir()
    shutil.copy(BUILT, folder / "crates/dmf/out/dmf")


def commit_all(folder: Path) -> None:
    """Makes a folder a checkout of git with one commit, made at a known time."""
    git = [
        "git",
        "-C",
        str(folder),
        "-c",
        "user.name=dmf",
        "-c",
        "user.email=dmf@localhost",
        "-c",
        "core.autocrlf=false",
    ]
    when = {
        "PATH": "/usr/bin:/bin",
        "HOME": str(folder),
        "GIT_AUTHOR_DATE": "@1700000000 +0000",
        "GIT_COMMITTER_DATE": "@1700000000 +0000",
    }
    for words in ["init", "-q"], ["add", "-A"], ["commit", "-q", "-m", "All"]:
        subprocess.run([*git, *words], env=when, check=True, capture_output=True)
