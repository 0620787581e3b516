"""Finds the Python and the shell of the repository."""

from __future__ import annotations

import re
import subprocess
from pathlib import Path

ROOT = Path(__file__).resolve().parent.parent
# The files that git tracks, and new ones that it does not ignore.
LISTED = ["git", "ls-files", "-z", "--cached", "--others", "--exclude-standard"]


def first_bytes(path: Path) -> bytes:
    with path.open("rb") as file:
        return file.read(80)


def sources(*endings: str, program: bytes) -> list[Path]:
    """The files that have one of these endings, or that a program of this name runs."""
    names = subprocess.run(
        LISTED, cwd=ROOT, capture_output=True, text=True, check=True
    ).stdout.split("\0")
    paths = [path for path in (ROOT / name for name in sorted({*names})) if path.is_file()]
    called = re.compile(rb"#!.*\b" + program + rb"\b.*\n")
    return [path for path in paths if path.suffix in endings or called.match(first_bytes(path))]


def imports_its_name(path: Path) -> bool:
    """Whether a script imports what has its own name, and so can be no module beside it."""
    return bool(
        re.search(rf"^\s*(?:import|from) {re.escape(path.name)}\b", path.read_text(), re.MULTILINE)
    )


PYTHON = sources(".py", ".pyi", program=b"python3")
SHELL = sources(".sh", ".bash", program=b"(?:ba)?sh")


def judged_at_once() -> list[list[str]]:
    """The words of each call of mypy: one for all that can be modules beside each other, and one
    for each other script."""
    alone = [path for path in PYTHON if imports_its_name(path)]
    together = [str(path) for path in PYTHON if path not in alone]
    return [["--scripts-are-modules", *together], *([str(path)] for path in alone)]
