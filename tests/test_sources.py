"""Checks every script of the repository by the field's tools: black, isort and shfmt the format,
mypy the types in Python, flake8 names, idle statements and long lines, shellcheck the shell, and
eslint and tsc the page of a board."""

from __future__ import annotations

import os
import subprocess
import sys
from pathlib import Path

import pytest
from conftest import ROOT, Types
from sources import PYTHON, SHELL

# Where Debian has the modules of its tools in JavaScript, which another build of node does not look
# for there.
NODE = {**os.environ, "NODE_PATH": "/usr/share/nodejs"}
PAGE = ROOT / "clients/python/dmf/desk/board/page"


def judge(*words: object) -> None:
    ran = subprocess.run([*map(str, words)], cwd=ROOT, capture_output=True, text=True, env=NODE)
    assert ran.returncode == 0, ran.stdout + ran.stderr


def test_found() -> None:
    """Scripts are found by their ending or by their first line."""
    names = {str(path.relative_to(ROOT)) for path in [*PYTHON, *SHELL]}
    assert {
        "bench/setting.py",
        "bench/run",
        "examples/water/worst.py",
        "tools/dmf-names",
        "tools/friends/igraph",
    } <= names
    assert {"dmf", "test", ".ci/run", "tests/install/install.sh", "completions/dmf.bash"} <= names
    assert not names & {"setup.cfg", "README.md", "completions/dmf.fish", "tools/friends/lemon.cpp"}


@pytest.mark.seconds(50)
def test_types(types: Types) -> None:
    assert types.said == ""


@pytest.mark.seconds(40)
def test_format() -> None:
    """Python is as black and isort write it, and shell as shfmt does."""
    judge(ROOT / "tools/format", "--check")


@pytest.mark.seconds(5)
def test_names() -> None:
    judge(sys.executable, "-m", "flake8", *PYTHON)


@pytest.mark.parametrize("script", [pytest.param(it, id=str(it.relative_to(ROOT))) for it in SHELL])
def test_shell(script: Path) -> None:
    # A script of tests/ may source what stands beside it.
    dialect = ["--shell=bash"] if script.suffix == ".bash" else []
    judge("shellcheck", "-x", "--source-path=SCRIPTDIR", *dialect, script)


@pytest.mark.parametrize(
    "words",
    [
        ["eslint", "--no-eslintrc", "-f", "unix", "-c", "tests/eslint.json", PAGE],
        ["tsc", "-p", "tests/tsconfig.json"],
    ],
)
def test_page(words: list[object]) -> None:
    """The scripts of a board's page, their types by what their comments say of them."""
    judge(*words)


def test_page_is_seen(tmp_path: Path) -> None:
    """These tools find what is wrong in a script, so their silence on the page means something."""
    script = tmp_path / "wrong.js"
    script.write_text(
        "/** @param {string} text */\nexport const wrong = (text) => { nowhere.innerHTML = text * "
        "2; };\n"
    )
    tools: list[tuple[list[object], tuple[str, str]]] = [
        (
            [
                "eslint",
                "--no-eslintrc",
                "-f",
                "unix",
                "-c",
                ROOT / "tests/eslint.json",
                script.name,
            ],
            ("no-undef", "no-restricted-properties"),
        ),
        (
            [
                "tsc",
                "--allowJs",
                "--checkJs",
                "--noEmit",
                "--strict",
                "--target",
                "es2022",
                script.name,
            ],
            ("TS2304", "TS2362"),
        ),
    ]
    for words, wanted in tools:
        ran = subprocess.run(
            [*map(str, words)], cwd=tmp_path, capture_output=True, text=True, env=NODE
        )
        assert ran.returncode and all(word in ran.stdout for word in wanted), ran.stdout
