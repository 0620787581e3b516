"""Which tests of the client run over both ways: by the program behind a pipe, as all others do, and
by the C library in this process."""

from __future__ import annotations

import os
from collections.abc import Iterator

import pytest
from c_library import library_file

os.environ["DMF_LIBRARY"] = ""
# Where the way matters twice: what is asked of a session, what it refuses, what breaks it off, and
# what is tried on copies of it.
BOTH = {
    "test_broken_off",
    "test_client_sessions",
    "test_closed_arcs",
    "test_documented",
    "test_each_refusal",
    "test_networks",
    "test_numbering",
    "test_once",
    "test_plan_places_worth",
    "test_plan_worst_pairs",
    "test_reading",
    "test_second_arcs",
    "test_sweeps",
    "test_sweeps_from_scratch",
    "test_tried",
    "test_unbounded_arcs",
    "test_vital_arcs",
    "test_vital_pairs",
}


def pytest_generate_tests(metafunc: pytest.Metafunc) -> None:
    if metafunc.module.__name__ in BOTH and metafunc.definition.get_closest_marker("pipe") is None:
        metafunc.parametrize("way", ["pipe", "library"], indirect=True)


@pytest.fixture(autouse=True)
def way(request: pytest.FixtureRequest) -> Iterator[None]:
    """Has networks whose program nobody names run this way, also those of processes that the test
    begins."""
    if not hasattr(request, "param"):
        yield
        return
    import dmf

    library = library_file() if request.param == "library" else ""
    os.environ["DMF_LIBRARY"] = library
    try:
        assert dmf.library() == (library or None)
        yield
    finally:
        os.environ["DMF_LIBRARY"] = ""


@pytest.fixture
def by_library(monkeypatch: pytest.MonkeyPatch) -> None:
    """Has networks whose program nobody names run by the library."""
    monkeypatch.setenv("DMF_LIBRARY", library_file())
