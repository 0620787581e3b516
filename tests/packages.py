"""Loads the packages that some tests compare `dmf` with."""

from __future__ import annotations

import importlib
from typing import Any


def load(name: str) -> Any:
    """Return a package as `Any`, so that mypy judges the tests alike whether or not the package has
    types."""
    return importlib.import_module(name)
