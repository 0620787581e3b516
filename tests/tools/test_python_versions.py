"""The tools and the package on each Python that they support, from 3.9 to 3.13: what it cannot
read, and what it does not have.

Tests run on the Python of the machine. For each the syntax is judged, and by mypy the types, with
those of a caller. Debian's mypy takes 3.13, but does not know which modules that no longer has;
those are listed here."""

from __future__ import annotations

import ast
import subprocess
import sys
from collections.abc import Iterator
from itertools import accumulate
from pathlib import Path

import pytest
from client_shared import ROOT

MINORS = range(9, 13 + 1)
# The modules that Python 3.12 and 3.13 no longer have, by "What's New" of each.
GONE = {
    *("asynchat", "asyncore", "distutils", "imp", "smtpd"),
    *("aifc", "audioop", "cgi", "cgitb", "chunk", "crypt", "imghdr", "lib2to3", "mailcap"),
    *("msilib", "nis", "nntplib", "ossaudiodev", "pipes", "sndhdr", "spwd", "sunau", "telnetlib"),
    *("tkinter.tix", "uu", "xdrlib"),
}
TOOLS = sorted(Path(ROOT, "tools").glob("dmf-*"))
CALLER = Path(ROOT, "tests/client/typed_user.py")
SOURCES = [*TOOLS, *sorted(Path(ROOT, "clients/python/dmf").rglob("*.py"))]
NAMES = [path.name for path in SOURCES]


def unions(tree: ast.Module) -> Iterator[int]:
    """The lines with annotations that are evaluated and have a type such as `int | None`."""
    if any(isinstance(it, ast.ImportFrom) and it.module == "__future__" for it in tree.body):
        return
    for node in ast.walk(tree):
        annotations: list[ast.expr | None] = [
            getattr(node, "annotation", None),
            getattr(node, "returns", None),
        ]
        for annotation in annotations:
            if annotation is not None and any(
                isinstance(it, ast.BinOp) and isinstance(it.op, ast.BitOr)
                for it in ast.walk(annotation)
            ):
                yield annotation.lineno


def imported(tree: ast.Module) -> Iterator[str]:
    """The modules that a file imports from elsewhere, and the packages that they are in."""
    for node in ast.walk(tree):
        names = [it.name for it in node.names] if isinstance(node, ast.Import) else []
        if isinstance(node, ast.ImportFrom) and not node.level and node.module:
            names = [node.module, *(f"{node.module}.{it.name}" for it in node.names)]
        for name in names:
            yield from accumulate(name.split("."), "{}.{}".format)


@pytest.mark.parametrize("path", SOURCES, ids=NAMES)
def test_what_it_cannot_read(path: Path) -> None:
    """`ast` judges a newer version than the one that runs by the syntax of the one that runs."""
    text = path.read_text()
    trees = [ast.parse(text, feature_version=(3, minor)) for minor in MINORS]
    assert [*unions(trees[0])] == []
    assert GONE.isdisjoint(imported(trees[-1]))


def test_what_is_gone_is_seen() -> None:
    tree = ast.parse("import cgi as c\nfrom tkinter import tix\nfrom .imp import a\nimport a.uu\n")
    assert GONE & {*imported(tree)} == {"cgi", "tkinter.tix"}


@pytest.mark.seconds(20)
@pytest.mark.parametrize("minor", MINORS)
def test_what_it_does_not_have(minor: int, tmp_path: Path) -> None:
    mypy = [
        sys.executable,
        "-m",
        "mypy",
        f"--python-version=3.{minor}",
        f"--cache-dir={tmp_path}",
        "--scripts-are-modules",
    ]
    ran = subprocess.run([*mypy, *SOURCES, CALLER], cwd=ROOT, capture_output=True, text=True)
    assert ran.returncode == 0, ran.stdout + ran.stderr
