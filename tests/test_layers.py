"""The rooms of the Python package import only from those before them, and no modules import each
other in a circle."""

from __future__ import annotations

import ast
import subprocess
import sys
from collections import Counter
from collections.abc import Iterable
from pathlib import Path

import pytest
from client_shared import CLIENT
from layers import CORE, Imports, cycle_of, is_upward, room_of


@pytest.fixture(scope="module")
def edges() -> set[tuple[str, str]]:
    return Imports(Path(CLIENT, "dmf")).edges()


def test_imports_point_down(edges: set[tuple[str, str]]) -> None:
    assert len(edges) > 300
    assert sorted(edge for edge in edges if is_upward(edge)) == []


def test_no_circles(edges: set[tuple[str, str]]) -> None:
    assert cycle_of(edges) == []


def test_each_module_has_a_room(edges: set[tuple[str, str]]) -> None:
    modules = {module for edge in edges for module in edge}
    assert {room_of(module) for module in modules} >= {
        "errors",
        "text",
        "session",
        CORE,
        "sweeps",
        "tables",
        "desk",
        "desk.board",
        "tools",
    }
    assert room_of("history") == room_of("errors") and room_of("desk.plan.shell") == "desk.plan"


def test_names_stand_once() -> None:
    """No two modules of the package have one name, and no two classes."""
    modules = {
        name: path
        for name, path in Imports(Path(CLIENT, "dmf")).modules.items()
        if path.name != "__init__.py"
    }
    assert twice(name.rpartition(".")[2] for name in modules) == []
    trees = (ast.parse(path.read_text()) for path in modules.values())
    assert (
        twice(node.name for tree in trees for node in tree.body if isinstance(node, ast.ClassDef))
        == []
    )


def twice(names: Iterable[str]) -> list[str]:
    return [name for name, count in Counter(names).items() if count > 1]


def test_a_network_loads_little() -> None:
    """Nothing that takes long to load is loaded before it is needed."""
    program = "import sys, dmf; dmf.Network; print(*sys.modules)"
    ran = subprocess.run(
        [sys.executable, "-c", program],
        capture_output=True,
        text=True,
        env={"PYTHONPATH": CLIENT},
        check=True,
    )
    assert not {"dataclasses", "decimal", "numpy", "secrets", "shutil", "subprocess"} & {
        *ran.stdout.split()
    }


# A package with one import of each form, and what they are.
PACKAGE = {
    "__init__.py": '_NAMES = {"network": ["Network"]}\n',
    "errors.py": "def late():\n    from .desk import workspace\n",
    "network.py": "from . import errors, state\n",
    "state.py": "TYPE_CHECKING = False\nif TYPE_CHECKING:\n    from .network import Network\n",
    "tables/__init__.py": "",
    "tables/sheet.py": "from dmf.sweeps.cases import sweep\n",
    "sweeps/__init__.py": "",
    "sweeps/cases.py": "from .. import Network, Error\nimport dmf.state\nimport os\n",
    "desk/__init__.py": "from .workspace import Desk\n",
    "desk/workspace.py": "from ..state import X\n",
}
IMPORTS = [
    "desk -> desk.workspace",
    "desk.workspace -> state",
    "errors -> desk.workspace",
    "network -> errors",
    "network -> state",
    "state -> network",
    "sweeps.cases -> errors",
    "sweeps.cases -> network",
    "sweeps.cases -> state",
    "tables.sheet -> sweeps.cases",
]


def test_faults_are_found(tmp_path: Path) -> None:
    """Late imports count, those for types alone, those of public names, and those between two rooms
    beside each other."""
    for name, text in PACKAGE.items():
        path = tmp_path / name
        path.parent.mkdir(exist_ok=True)
        path.write_text(text)
    edges = Imports(tmp_path).edges()
    assert sorted(" -> ".join(edge) for edge in edges) == IMPORTS
    assert {edge for edge in edges if is_upward(edge)} == {
        ("errors", "desk.workspace"),
        ("tables.sheet", "sweeps.cases"),
    }
    assert set(cycle_of(edges - {("errors", "desk.workspace")})) == {"network", "state"}
    assert cycle_of(edges - {("errors", "desk.workspace"), ("state", "network")}) == []
