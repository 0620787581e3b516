"""The package and a caller's file pass `mypy --strict`, and a caller's mistakes do not."""

import ast
import os
import re
import subprocess
from pathlib import Path

from client_shared import CLIENT, ROOT
from conftest import Types
from public_calls import NAMES

USER = f"{ROOT}/tests/client/typed_user.py"
# Each of these is one line of a caller, with the kind of the error that mypy tells of it.
MISTAKES = {
    'dmf.Network([("a", "b", "3")], "a", "b")': "list-item",
    'dmf.Network([("a", "b", 3)], "a", "b").add(1, "b", 2)': "arg-type",
    'dmf.Network([("a", "b", 3)], "a", "b").cut().side + 1': "operator",
    'dmf.Network([("a", "b", 3)], "a", "b").solve()["a", "b"].tail': "attr-defined",
    "network: dmf.Network[list[int]]": "type-var",
    'dmf.maximum_flow({"a": {"b": 3}}, "a", "b")[1]["a"]["b"].tail': "attr-defined",
    'dmf.value([("a", "b", 3)], "a", "b").real.windy': "attr-defined",
    'dmf.minimum_cut({"a": {"b": 3}}, "a", "b")[1] + 1': "operator",
}


def judge(types: Types, *words: str) -> str:
    """What mypy says."""
    command = [
        "mypy",
        "--strict",
        f"--cache-dir={types.cache}",
        "--no-error-summary",
        "--show-error-codes",
        *words,
    ]
    ran = subprocess.run(
        command, env={**os.environ, "MYPYPATH": CLIENT}, capture_output=True, text=True, cwd=ROOT
    )
    return ran.stdout + ran.stderr


def test_the_package_and_a_caller(types: Types) -> None:
    assert judge(types, f"{CLIENT}/dmf", f"{CLIENT}/build_wheel.py", USER) == ""


def test_mistakes(types: Types) -> None:
    """mypy reports each mistake in its line, and nothing else."""
    said = judge(types, "-c", "\n".join(["import dmf", *MISTAKES]))
    told = re.findall(r"^(.*?):(\d+): error: .*\[(.*)\]$", said, re.MULTILINE)
    assert told == [
        ("<string>", str(line), code) for line, code in enumerate(MISTAKES.values(), 2)
    ], said


def test_the_caller_makes_every_call() -> None:
    """Each public name but those of the exceptions stands in the caller's file."""
    tree = ast.parse(Path(USER).read_text())
    assert (
        NAMES - {node.attr for node in ast.walk(tree) if isinstance(node, ast.Attribute)} == set()
    )
