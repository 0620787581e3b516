"""Reads which modules of the Python package import which."""

from __future__ import annotations

import ast
from collections.abc import Iterator
from graphlib import CycleError, TopologicalSorter
from pathlib import Path

PACKAGE = "dmf"
# The rooms in their order: a module imports from its own room and from those before it. Rooms in
# one line do not know each other. The modules that stand in no folder are those of the core, if no
# other room names them.
CORE = "the core"
ROOMS = [
    ["errors", "quantity", "history", "running"],
    ["text"],
    ["files"],
    ["session"],
    [CORE],
    ["sweeps", "tables"],
    ["desk"],
    ["desk.pictures"],
    ["desk.project"],
    ["desk.plan", "desk.board"],
    ["tools", "__main__"],
]
RANKS = {room: rank for rank, rooms in enumerate(ROOMS) for room in rooms}
# Modules in no folder that make one room.
SAME = {**{room: ROOMS[0][0] for room in ROOMS[0]}, "__main__": "tools"}

Edge = tuple[str, str]


def room_of(module: str) -> str:
    """Return the room of a module, which is named from the package on."""
    if module in RANKS:
        return SAME.get(module, module)
    return module.rpartition(".")[0] or CORE


def modules_of(folder: Path) -> dict[str, Path]:
    """Return the modules of a package by their names; the package itself has an empty one."""
    found = {}
    for path in sorted(folder.rglob("*.py")):
        parts = path.relative_to(folder).with_suffix("").parts
        found[".".join(parts[:-1] if parts[-1] == "__init__" else parts)] = path
    return found


def public_homes(source: str) -> dict[str, str]:
    """Return the modules of the public names that a package loads when they are asked for."""
    for node in ast.parse(source).body:
        if isinstance(node, ast.Assign) and ast.unparse(node.targets[0]) == "_NAMES":
            names: dict[str, list[str]] = ast.literal_eval(node.value)
            return {name: module for module, given in names.items() for name in given}
    return {}


class Imports:
    """The imports of a package: at the top of modules, in functions and for types alone."""

    def __init__(self, folder: Path) -> None:
        self.modules = modules_of(folder)
        self.homes = public_homes(self.modules[""].read_text())

    def edges(self) -> set[Edge]:
        """Return each pair of modules of which the first imports the second."""
        found = {
            (module, other) for module in self.modules if module for other in self._imported(module)
        }
        return {(module, other) for module, other in found if module != other}

    def _imported(self, module: str) -> Iterator[str]:
        path = self.modules[module]
        package = [PACKAGE, *module.split(".")][: None if path.name == "__init__.py" else -1]
        for node in ast.walk(ast.parse(path.read_text())):
            if isinstance(node, ast.Import):
                yield from (
                    self._home(alias.name, "")
                    for alias in node.names
                    if alias.name.startswith(f"{PACKAGE}.")
                )
            if isinstance(node, ast.ImportFrom):
                parts = package[: len(package) - node.level + 1] if node.level else []
                base = ".".join([*parts, *([node.module] if node.module else [])])
                if base.split(".")[0] == PACKAGE:
                    yield from (
                        home for alias in node.names if (home := self._home(base, alias.name))
                    )

    def _home(self, base: str, name: str) -> str:
        """Return the module that an import of a name reaches; an empty one for what the package
        itself has."""
        base = base.partition(".")[2]
        within = f"{base}.{name}".strip(".")
        if within in self.modules:
            return within
        return base or self.homes.get(name, "errors" if name[0].isupper() else "")


def is_upward(edge: Edge) -> bool:
    """Return True if a module imports from a room after its own, or beside it."""
    room, other = map(room_of, edge)
    return room != other and RANKS[other] >= RANKS[room]


def cycle_of(edges: set[Edge]) -> list[str]:
    """Return modules that import each other in a circle, if there are such."""
    graph: dict[str, set[str]] = {}
    for module, other in edges:
        graph.setdefault(module, set()).add(other)
    try:
        TopologicalSorter(graph).prepare()
    except CycleError as error:
        return list(error.args[1])
    return []
