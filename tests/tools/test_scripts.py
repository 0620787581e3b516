"""What lies in `tools/` as a tool runs the module of the package that it is named for."""

from __future__ import annotations

from importlib import import_module
from pathlib import Path

import pytest
from client_shared import ROOT

TOOLS = sorted(Path(ROOT, "tools").glob("dmf-*"))


def test_all_are_alike() -> None:
    assert len(TOOLS) == 6
    assert len({path.read_bytes() for path in TOOLS}) == 1


@pytest.mark.parametrize("path", TOOLS, ids=[path.name for path in TOOLS])
def test_each_has_a_module(path: Path) -> None:
    module = import_module(f"dmf.tools.{path.name.removeprefix('dmf-')}")
    assert module.NAME == path.name and callable(module.main)
