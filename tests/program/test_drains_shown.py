"""How the built program shows the progress of a drain: which arc is drained, and how much is taken
off, where that is asked for and on a pseudo terminal, where it can be interrupted."""

from __future__ import annotations

import re
import signal
import subprocess
from pathlib import Path

import pytest
from conftest import BUILT
from limits import SECONDS
from program.test_progress import TWO_PIPES, piped
from progress_lines import ERASED
from terminals import Terminal, with_terminal

# How much flows through the hub of a problem whose drains take their time, and what is drained: the
# change, how many arcs lead to the hub, and how many arcs are drained in turn.
HUB_FLOW = 8000
LONG_DRAINS = {
    "a shut": (b"shut 3", HUB_FLOW, 2 * HUB_FLOW),
    "the closing of an arc": (b"close 1", 1, 1),
}


def test_asked_drains(tmp_path: Path) -> None:
    """A shut shows which of the arcs at the node is drained, and how much is taken off; so does the
    closing of one arc."""
    (tmp_path / "pipes.max").write_bytes(TWO_PIPES)
    asked = piped(
        ["session", "--progress", "--brief", str(tmp_path / "pipes.max")],
        b"solve\nshut 2\nundo\nclose 2\n",
    )
    told = re.findall(rb"dmf: draining, arc (\d+) of (\d+), (\d+) taken off\n", asked.stderr)
    assert (asked.returncode, told) == (0, [(b"1", b"2", b"4"), (b"1", b"1", b"4")])


def hub_problem(arcs_in: int) -> bytes:
    """A problem in which units flow from node 1 by node 3, the hub, to node 2. From the hub each
    enters one chain of nodes elsewhere, so that no two have paths of one length, and each path is
    searched again."""
    chain = range(4, HUB_FLOW + 4)
    arcs = [(1, 3, HUB_FLOW // arcs_in)] * arcs_in + [(3, node, 1) for node in chain]
    arcs += [(node, node + 1, HUB_FLOW) for node in chain[:-1]] + [(chain[-1], 2, HUB_FLOW)]
    lines = b"".join(b"a %d %d %d\n" % arc for arc in arcs)
    return b"p max %d %d\nn 1 s\nn 2 t\n%b" % (chain[-1], len(arcs), lines)


@pytest.mark.seconds(3)
@pytest.mark.parametrize("name", LONG_DRAINS)
def test_long_drain(tmp_path: Path, name: str) -> None:
    """On a terminal a long drain shows how far it is. Here each arc into the hub carries as much as
    the others."""
    change, arcs_in, count = LONG_DRAINS[name]
    (tmp_path / "hub.max").write_bytes(hub_problem(arcs_in))
    words = ["session", "--progress", "--brief", str(tmp_path / "hub.max")]
    status, replies, told = with_terminal(words, b"solve\n%b\n" % change)
    assert (status, replies) == (
        0,
        b"c solve value %d\nc %b value 0\n" % (HUB_FLOW, change.split()[0]),
    )
    drained = re.findall(
        r"\r\x1b\[Kdmf: draining, arc (\d+) of (\d+), (\d+) taken off(?=\r\x1b\[K)", told
    )
    places, counts, taken = zip(*(map(int, word) for word in drained))
    assert (
        len(taken) == told.count("draining") > 1
        and [*taken] == sorted({*taken})
        and {*counts} == {count}
    )
    assert (places[0], taken[0]) == (1, 1) and taken[-1] <= HUB_FLOW
    assert {*places} == {1} if arcs_in == 1 else places == taken
    assert told.endswith(ERASED)


@pytest.mark.seconds(3)
def test_interrupted_shut(tmp_path: Path) -> None:
    """Ctrl-C in a long shut ends the session by that signal. The replies before are whole, and the
    shut has none."""
    (tmp_path / "hub.max").write_bytes(hub_problem(HUB_FLOW))
    words = [str(BUILT), "session", "--progress", "--brief", str(tmp_path / "hub.max")]
    with Terminal() as terminal, subprocess.Popen(
        words,
        stdin=subprocess.PIPE,
        stdout=subprocess.PIPE,
        stderr=terminal.end,
        start_new_session=True,
        preexec_fn=terminal.control,
    ) as running:
        assert running.stdin
        running.stdin.write(b"solve\nshut 3\nsolve\n")
        running.stdin.flush()
        assert terminal.wait_for(lambda told: "draining" in told)
        terminal.type(b"\x03")
        # Its standard input stays open, so that nothing else ends it.
        assert running.wait(timeout=SECONDS) == -signal.SIGINT
        assert running.stdout and running.stdout.read() == b"c solve value %d\n" % HUB_FLOW
        assert re.search(r"dmf: draining, arc \d+ of \d+, \d+ taken off$", terminal.close())
