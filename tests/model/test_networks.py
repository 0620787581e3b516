"""Networks by the library and by the program, driven by the same random acts as the model: changes,
undo and redo with a bounded history, trials in trials, copies, sessions that end and begin again,
and solves that Ctrl-C ends."""

from __future__ import annotations

import contextlib
from copy import deepcopy
from random import Random
from typing import Any

import dmf
import pytest
from c_library import library_file
from client_shared import BUILT
from dmf.session import library
from model.whole_states import UNBOUNDED, NetworkModel, Whole
from oracle.network import State
from oracle.texts import LARGEST, Fault
from random_cases import fitting
from random_cases import network as random_network
from watched_library import ctrl_c_in_a_solve

# How many acts a session has, and how many all of them have in the gate and by --long.
ACTS, GATE, LONG, BATCHES = 50, 3_000, 100_000, 10
HISTORIES = None, None, 0, 1, 2, 3, 5
# How many arcs a network has at most whose calls do not run in another thread: all do, or none.
AT_ONCE = -1, 20_000
WORDS = (
    "solve",
    "solve",
    "cap",
    "cap",
    "close",
    "close",
    "shut",
    "add",
    "open",
    "undo",
    "undo",
    "redo",
    "begin",
    "begin",
    "end",
    "copy",
    "again",
    "stop",
)


class Player:
    """A network that carries out what the model does."""

    def __init__(self, state: State, program: str | None, history: int | None) -> None:
        rows = [(f"n{arc.tail}", f"n{arc.head}", arc.cap) for arc in state.arcs]
        nodes = [f"n{node}" for node in range(1, state.nodes + 1)]
        self.network: dmf.Network[str] = dmf.Network(
            rows,
            f"n{state.source}",
            f"n{state.sink}",
            nodes=nodes,
            program=program,
            history=history,
        )
        self._blocks: list[contextlib.AbstractContextManager[Any]] = []

    def _arc(self, number: int) -> dmf.Arc[str]:
        return self.network._kept.handle(number)

    def do(self, word: str, *numbers: int) -> None:
        network = self.network
        if word in ("cap", "close", "open"):
            getattr(network, word)(self._arc(numbers[0]), *numbers[1:])
        elif word == "add":
            network.add(f"n{numbers[0]}", f"n{numbers[1]}", numbers[2])
        elif word == "shut":
            network.shut(f"n{numbers[0]}")
        else:
            getattr(network, word)(*numbers)

    def begin(self) -> None:
        self._blocks.append(self.network.try_out())
        self._blocks[-1].__enter__()

    def end(self) -> None:
        self._blocks.pop().__exit__(None, None, None)

    def copy(self) -> None:
        before, self.network = self.network, self.network.copy()
        before.end()

    def again(self) -> None:
        self.network._session.kill("the session was ended by a test")
        self.network.begin_again()

    def stop(self, is_begun: bool) -> None:
        """Break a solve of the library off, after which the session goes on."""
        session = self.network._session
        if isinstance(session, library.LibrarySession):
            with pytest.raises(KeyboardInterrupt), ctrl_c_in_a_solve(is_begun):
                self.network.solve()
            self.told()
            assert self.network._session is session

    def told(self) -> tuple[object, ...]:
        """Return all that the network tells of its present state, by numbers."""
        network, kept = self.network, self.network._kept
        flow = network.flow()
        arcs = [
            (arc.number, arc.tail, arc.head, network.capacity(arc), flow[arc])
            for arc in network.arcs
        ]
        try:
            found = network.cut()
            cut: object = sorted(found.side), found.capacity, [arc.number for arc in found.arcs]
        except dmf.FlowIsNotGreatest:
            cut = None
        return network.value, flow.value, arcs, sorted(kept.closed), cut


def expected(whole: Whole) -> tuple[object, ...]:
    """Return the same of a state of the model."""
    network = whole.network
    numbered = list(enumerate(zip(network.arcs, network.flows), 1))
    arcs = [
        (number, f"n{arc.tail}", f"n{arc.head}", arc.cap, flow)
        for number, (arc, flow) in numbered
        if not arc.is_closed
    ]
    found = whole.cut()
    cut = found and (sorted(f"n{node}" for node in found[0]), *found[1:])
    closed = [number for number, (arc, _) in numbered if arc.is_closed]
    return network.value(), network.value(), arcs, closed, cut


def numbers_for(random: Random, model: NetworkModel, word: str) -> list[int]:
    """Return what a command speaks of, mostly what is there."""
    state = model.now.network
    arc, amount = random.randint(1, max(1, len(state.arcs))), random.choice(
        [0, 1, 2, 5, 9, 30, 2**62]
    )
    closed = [number for number, it in enumerate(state.arcs, 1) if it.is_closed]
    if word == "open" and closed and random.random() < 0.8:
        arc = random.choice(closed)
    nodes = [random.randint(1, state.nodes) for _ in range(2)]
    count = random.choice([0, 1, 1, 1, 2, 3, 7])
    found = {
        "cap": [arc, amount],
        "close": [arc],
        "open": [arc],
        "shut": nodes[:1],
        "add": [*nodes, amount],
        "undo": [count],
        "redo": [count],
    }
    return found.get(word, [])


def act(random: Random, model: NetworkModel, players: list[Player]) -> None:
    """Do a random act with all of them. They agree, also where it is refused."""
    word = random.choice(WORDS)
    if (
        word in ("cap", "close", "open")
        and not model.now.network.arcs
        or word == "copy"
        and model.floors
    ):
        return
    if word == "begin":
        model.begin_trial()
    elif word == "end":
        if not model.floors:
            return
        model.end_trial()
    if word == "stop":
        is_begun = random.random() < 0.5
        # A solve that is refused does not begin.
        with contextlib.suppress(Fault):
            deepcopy(model).change("solve")
            for player in players:
                player.stop(is_begun)
        return
    if word in ("begin", "end", "copy", "again"):
        for player in players:
            getattr(player, word)()
        return
    numbers = numbers_for(random, model, word)
    try:
        if word in ("undo", "redo"):
            getattr(model, word)(*numbers)
        else:
            model.change(word, *numbers)
    except Fault as fault:
        for player in players:
            with pytest.raises(dmf.Error) as caught:
                player.do(word, *numbers)
            assert str(caught.value).startswith(str(fault)), (word, numbers)
    else:
        for player in players:
            player.do(word, *numbers)


@pytest.mark.seconds(10)
@pytest.mark.parametrize("batch", range(BATCHES))
def test_lockstep(
    batch: int, request: pytest.FixtureRequest, monkeypatch: pytest.MonkeyPatch
) -> None:
    monkeypatch.setenv("DMF_LIBRARY", library_file())
    count = (LONG if request.config.getoption("--long") else GATE) // ACTS // BATCHES
    for session in range(count):
        random = Random(f"model {batch} {session}")
        monkeypatch.setattr(library, "MOST_AT_ONCE", random.choice(AT_ONCE))
        state = random_network(random, 12)
        state = state if state.capacity_sum() <= LARGEST else fitting(state)
        history = random.choice(HISTORIES)
        model = NetworkModel(
            Whole(state, tuple(arc.cap for arc in state.arcs)),
            UNBOUNDED if history is None else history,
        )
        players = [Player(state, None, history), Player(state, BUILT, history)]
        try:
            for _ in range(ACTS):
                act(random, model, players)
                for player in players:
                    assert player.told() == expected(model.now)
            while model.floors:
                model.end_trial()
                for player in players:
                    player.end()
                    assert player.told() == expected(model.now)
        finally:
            for player in players:
                player.network.end()
