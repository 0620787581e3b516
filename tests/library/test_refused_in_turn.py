"""Random sessions that make every call of the C library, beside the second implementation, while
each request for memory is refused in turn. --long plays 50,000 of them."""

from __future__ import annotations

import json
import os
import subprocess
import sys
from pathlib import Path

import pytest
from c_library import ROOT, header_calls

SESSIONS, MANY, BATCHES = 400, 50_000, 4
# The calls that take no memory, by dmf.h. All but the last three are made only to look at a
# session.
WITHOUT_MEMORY = {
    *("dmf_version", "dmf_abi", "dmf_session_free", "dmf_session_nodes", "dmf_session_source"),
    *("dmf_session_sink", "dmf_session_arcs", "dmf_session_value", "dmf_session_past"),
    *("dmf_session_future", "dmf_session_flows", "dmf_session_capacities"),
    *("dmf_stop_raise", "dmf_stop_clear", "dmf_stop_free"),
    *("dmf_session_undo", "dmf_session_arc_range", "dmf_session_moved"),
}
# A redo may need memory, but an added arc usually has the room that it had before.
SELDOM = {"dmf_session_redo"}


@pytest.mark.seconds(10)
@pytest.mark.parametrize("batch", range(BATCHES))
def test_random_sessions(refusing_heap: str, batch: int, request: pytest.FixtureRequest) -> None:
    """What each call answers is judged there; here, that each was refused memory that may be."""
    sessions = (MANY if request.config.getoption("--long") else SESSIONS) // BATCHES
    seed = f"{request.config.getoption('--seed')} {batch}"
    paths = [str(ROOT / folder) for folder in ("tests", "tests/cases", "clients/python")]
    ran = subprocess.run(
        [sys.executable, Path(__file__).with_name("refused_in_turn.py"), seed, str(sessions)],
        env={**os.environ, "LD_PRELOAD": refusing_heap, "PYTHONPATH": os.pathsep.join(paths)},
        capture_output=True,
        text=True,
    )
    assert (ran.returncode, ran.stderr) == (0, "")
    refused = {
        name if name.startswith("dmf_stop_") else f"dmf_session_{name}": times
        for name, times in json.loads(ran.stdout).items()
    }
    assert {*header_calls()} == {*refused} | WITHOUT_MEMORY
    assert {name for name, times in refused.items() if not times} <= WITHOUT_MEMORY | SELDOM
    assert not any(refused.get(name) for name in WITHOUT_MEMORY)
