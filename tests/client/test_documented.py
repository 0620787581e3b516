"""The examples of the client's docstrings and of README.md."""

from __future__ import annotations

import ast
import doctest
import inspect
import os
import re
import subprocess
import sys
from decimal import Decimal
from pathlib import Path
from types import ModuleType
from typing import Any

import pytest
from client_shared import CLIENT, ROOT, dmf
from dmf import errors
from dmf.sweeps import cases as sweeping
from public_calls import CALLS, PROJECT_CALLS


@pytest.mark.parametrize("module", [dmf, sweeping], ids=["dmf", "sweeping"])
def test_docstrings(module: ModuleType) -> None:
    # What is asked for is loaded, so that its examples are found.
    names = {"dmf": dmf, **{name: getattr(dmf, name) for name in dir(dmf)}}
    runner = doctest.DocTestRunner(verbose=False)
    for test in doctest.DocTestFinder().find(module, extraglobs=names):
        # The examples of a project's calls need a project; `test_call_of_a_project` runs them.
        if not test.name.startswith("dmf.OpenProject."):
            runner.run(test)
    assert (runner.failures, runner.tries > 0) == (0, True)


@pytest.mark.parametrize("name", CALLS)
def test_call(name: str) -> None:
    """Each public call of a network, of a graph and of a sweep first says what it does, names its
    parameters, and has an example, which is run."""
    call = CALLS[name]
    judge_docstring(call)
    run_examples(call, {name: getattr(dmf, name) for name in dir(dmf)})


def run_examples(call: Any, names: dict[str, Any]) -> None:
    """Run the examples of a call, which has some."""
    runner = doctest.DocTestRunner()
    for test in doctest.DocTestFinder(recurse=False).find(call, "call", module=False, globs=names):
        assert runner.run(test).failed == 0
    assert runner.tries > 0


def judge_docstring(call: Any) -> None:
    """Judge that a docstring says first what a call does, names its parameters, and has an
    example."""
    text = inspect.cleandoc(call.__doc__ or "")
    first, below, *_ = [*text.split("\n"), ""]
    assert re.fullmatch(r"[A-Z][a-z]+ .*[.]", first) and not below, first
    assert text.count("\nExamples\n--------\n>>> ") == 1
    for title, rule in re.findall(r"^([A-Z][a-z]+)\n(-+)$", text, re.MULTILINE):
        assert title in ("Parameters", "Returns", "Raises", "Examples")
        assert len(title) == len(rule)
    told = re.findall(r"^([a-z_, ]+)\n    ", text.partition("Parameters\n")[2], re.MULTILINE)
    parameters = {*inspect.signature(call).parameters} if callable(call) else set()
    named = {word.strip() for words in told for word in words.split(",")} & parameters
    # A call of few words may name none; one that names some names all.
    assert not named or named == parameters - {"self"}


# The table of the examples, with a column of costs.
TABLE = "from,to,capacity,name,cost\nlake,mill,3,Lake pipe,10\nmill,sea,2,Mill pipe,5\n"


@pytest.mark.parametrize("name", PROJECT_CALLS)
def test_call_of_a_project(name: str, tmp_path: Path) -> None:
    """As `test_call`, on a project of its own."""
    judge_docstring(PROJECT_CALLS[name])
    (tmp_path / "pipes.csv").write_text(TABLE)
    with dmf.new_project(tmp_path / "pipes.csv", tmp_path / "own.dmf.json") as project:
        names = {"dmf": dmf, "Decimal": Decimal, "folder": tmp_path, "project": project}
        run_examples(PROJECT_CALLS[name], names)


def test_class_of_projects() -> None:
    run_examples(dmf.OpenProject, {"dmf": dmf})


def test_readme() -> None:
    failed, tried = doctest.testfile(f"{ROOT}/README.md", module_relative=False, verbose=False)
    assert (failed, tried > 0) == (0, True)


def test_names() -> None:
    """What a type checker reads of the package is what Python finds in it."""
    tree = ast.parse(Path(dmf.__file__).read_text())
    imports = [
        node
        for node in ast.walk(tree)
        if isinstance(node, ast.ImportFrom) and node.level == 1 and node.names[0].asname
    ]
    static = {(name.name, node.module) for node in imports for name in node.names}
    assert all(name.name == name.asname for node in imports for name in node.names)
    assert static == {(name, home) for name, home in dmf._HOMES.items()} | {
        (name, "errors") for name in errors.PUBLIC
    }
    for name, home in static:
        assert getattr(dmf, name) is getattr(sys.modules[f"dmf.{home}"], name), name
    assert {name for name in dir(dmf) if not name.startswith("_")} >= {name for name, _ in static}
    with pytest.raises(AttributeError, match="^module 'dmf' has no attribute 'netwrok'$"):
        getattr(dmf, "netwrok")


def test_nothing_is_loaded_before_it_is_asked_for() -> None:
    for asked, wanted in ("", {"dmf"}), ("dmf.NoSuchArc", {"dmf", "dmf.errors"}):
        script = (
            f"import sys, dmf\n{asked}\nprint(*(name for name in sys.modules if "
            "name.partition('.')[0] == 'dmf'))"
        )
        ran = subprocess.run(
            [sys.executable, "-c", script],
            env={**os.environ, "PYTHONPATH": CLIENT},
            capture_output=True,
            text=True,
        )
        assert set(ran.stdout.split()) == wanted, ran.stderr
