"""Where the modules of version 0.1.0 are now. Pickles of then name them, and programs may import
public names from them."""

from __future__ import annotations

from functools import partial
from importlib import import_module
from importlib.abc import Loader
from importlib.machinery import ModuleSpec
from types import ModuleType

# For each module of version 0.1.0, the modules that have its content now; a package has no names of
# its own.
HOMES: dict[str, tuple[str, ...]] = {
    "executable": ("session.executable",),
    "numbering": ("columns",),
    "once": ("graphs", "graph_flows"),
    "project": (),
    "project.comparison": ("desk.project.comparison",),
    "project.form": ("desk.project.schema", "desk.project.records", "desk.project.strict_json"),
    "project.live": (
        "desk.project.open_project",
        "desk.project.project_answers",
        "desk.project.python_project",
    ),
    "showing": ("presentation",),
    "sources": ("graph_networks", "tables.problem_networks"),
    "sweeping": ("sweeps.cases",),
    "tables.answers": ("tables.table_answers",),
    "tables.comments": ("text.table_comments",),
    "tables.faults": ("errors",),
    "tables.folded": ("tables.table_answers",),
    "tables.live": ("tables.table_network",),
    "tables.opened": ("tables.network_loader",),
    "tables.places": ("tables.arcs_and_places",),
    "ways": ("session.runners",),
}
# Classes by the names that pickles of version 0.1.0 have for them.
RENAMED = {"Described": "TableComments", "Inner": "InnerNode"}


def spec_of(name: str) -> ModuleSpec | None:
    """Return the spec of a module of then, or None for any other name."""
    package, _, module = name.partition(".")
    if module not in HOMES:
        return None
    spec = ModuleSpec(name, _Earlier(package, HOMES[module]), is_package=not HOMES[module])
    return spec


class _Earlier(Loader):
    """Makes a module that looks each name up where it is now."""

    def __init__(self, package: str, homes: tuple[str, ...]) -> None:
        self._package = package
        self._homes = homes

    def exec_module(self, module: ModuleType) -> None:
        vars(module)["__getattr__"] = partial(self._find, module.__name__)

    def _find(self, module: str, name: str) -> object:
        for home in self._homes:
            try:
                found: object = getattr(
                    import_module(f"{self._package}.{home}"), RENAMED.get(name, name)
                )
            except AttributeError:
                continue
            return found
        raise AttributeError(f"module {module!r} has no attribute {name!r}")
