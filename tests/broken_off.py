"""What the tests of calls that are broken off share: a network with something to undo, to redo and
to open, its calls, and all that it tells."""

from __future__ import annotations

import contextlib
from collections.abc import Callable, Iterable
from typing import Any, Protocol

from client_shared import PIPES, dmf

# A second path, and what leads back, so that a flow depends on the steps that led to it.
ROWS: list[Any] = [
    *PIPES,
    ("lake", "sea", 1, "canal"),
    ("sea", "lake", 4),
    ("town", "mill", 2, "back"),
]
Step = Callable[["dmf.Network[str]"], object]
Call = Callable[[Any], object]


class Breaker(Protocol):
    """Breaks a call off at one of its places, which are counted from 1. At 0 it only counts
    them."""

    at: int
    count: int

    def call(self, call: Call, about: Any) -> bool:
        """Return whether the call was broken off. Its end may come first."""
        ...


# Each call that asks the program, on a network that has something to undo, to redo and to open.
CALLS: dict[str, Step] = {
    "solve": lambda network: network.solve(),
    "cap": lambda network: network.cap(("lake", "mill"), 1),
    "close": lambda network: network.close(("lake", "town")),
    "shut": lambda network: network.shut("mill"),
    "add": lambda network: network.add("lake", "sea", 7, "new"),
    "open": lambda network: network.open("canal"),
    "undo": lambda network: network.undo(2),
    "redo": lambda network: network.redo(),
    "flow": lambda network: list(network.flow().values()),
    "cut": lambda network: network.cut(),
    "problem": lambda network: network.problem(),
    "an arc's flow": lambda network: network.arc(("lake", "mill")).flow,
}


def prepared(**options: Any) -> dmf.Network[str]:
    network = dmf.Network(ROWS, "lake", "sea", **options)
    network.solve()
    network.close("canal")
    network.cap(("town", "sea"), 4)
    network.add("mill", "sea", 1, "pump")
    network.solve()
    network.shut("town")
    network.undo()
    return network


def told(network: dmf.Network[str]) -> tuple[object, ...]:
    """All that a network tells of its present state."""
    flow = network.flow()
    arcs = [
        (arc.number, arc.tail, arc.head, arc.key, arc.capacity, arc.is_open) for arc in network.arcs
    ]
    try:
        cut: object = sorted(network.cut().side)
    except dmf.FlowIsNotGreatest:
        cut = None
    return network.value, flow.value, list(flow.values()), arcs, network.problem(), cut


def all_told(network: dmf.Network[str]) -> list[tuple[object, ...]]:
    """All that it tells of each state that it can go to. It is then where it was."""
    found, back, on = [told(network)], 0, 0
    with contextlib.suppress(dmf.NothingToUndo):
        while True:
            network.undo()
            back += 1
            found.append(told(network))
    network.redo(back)
    with contextlib.suppress(dmf.NothingToRedo):
        while True:
            network.redo()
            on += 1
            found.append(told(network))
    network.undo(on)
    return found


States = tuple[tuple[object, ...], tuple[object, ...], tuple[object, ...]]


def states(call: Call, counting: Breaker, **options: Any) -> States:
    """Return all that a network tells before a call, after it, and after a solve that follows."""
    with prepared(**options) as network:
        before = told(network)
        assert not counting.call(call, network)
        after = told(network)
        network.solve()
        return before, after, told(network)


def judge(call: Call, wanted: States, breaking: Iterable[Breaker], **options: Any) -> None:
    """Break a call of networks off in each of these ways: the state is that before the call or that
    after it, and the next calls are right."""
    before, after, later = wanted
    for it in breaking:
        with prepared(**options) as network:
            was_broken_off = it.call(call, network)
            found = told(network)
            assert found in ([before, after] if was_broken_off else [after]), it.at
            if found != after:
                call(network)
                assert told(network) == after, it.at
            network.solve()
            assert told(network) == later, it.at
