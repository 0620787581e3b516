"""Random sessions and graphs, compared with the second implementation and with networkx."""

from collections.abc import Callable
from random import Random
from typing import Any

import pytest
from client_shared import PIPES, dmf
from oracle.network import is_greatest, smallest_side
from oracle.problem import problem_text
from oracle.session import Session, SolveReply
from oracle.texts import LARGEST, Fault
from packages import load
from random_cases import fitting
from random_cases import network as random_network

SESSIONS = 150
numpy, networkx = map(load, ("numpy", "networkx"))


@pytest.mark.parametrize("seed", range(SESSIONS))
def test_sessions(seed: int) -> None:
    hold(Random(f"client {seed}"))


def hold(random: Random) -> None:
    state = random_network(random, 20)
    if state.capacity_sum() > LARGEST:
        state = fitting(state)
    model = Session(state, SolveReply(False, True))
    rows = [(f"n{arc.tail}", f"n{arc.head}", arc.cap) for arc in state.arcs]
    nodes = [f"n{node}" for node in range(1, state.nodes + 1)]
    with dmf.Network(rows, f"n{state.source}", f"n{state.sink}", nodes=nodes) as network:
        plans: list[tuple[dmf.Solution[str], list[int], int]] = []
        for _ in range(random.choice([3, 10, 30])):
            if random.random() < 0.2:
                try_out(model, network, random)
            step(model, network, random)
            state = model.present()
            if random.random() < 0.5:
                # It is looked at when the network is another one, or has ended.
                plans.append(
                    (network.flow(), [flow for _, flow in state.open_arcs()], state.value())
                )
            if random.random() < 0.7:
                compare(state, network)
    for plan, flows, value in plans:
        assert (list(plan.values()), plan.value, len(plan)) == (flows, value, len(flows))
        if numpy:
            assert plan.array().tolist() == flows


def try_out(model: Any, network: dmf.Network[str], random: Random) -> None:
    """Steps that are tried out, on the network alone, with an error at the end or none. All is then
    as it was."""
    text, plan, value = network.problem(), network.flow(), network.value
    try:
        with network.try_out():
            for _ in range(random.randrange(6)):
                arcs = network.arcs
                steps: list[Callable[[], object]] = [
                    network.solve,
                    network.undo,
                    network.redo,
                    lambda: network.shut("n2"),
                ]
                steps += [lambda: network.add("n1", "n2", 3), lambda: network.undo(2)]
                if arcs:
                    steps += [
                        lambda: network.close(random.choice(arcs)),
                        lambda: network.cap(random.choice(arcs), 1),
                    ]
                try:
                    random.choice(steps)()
                except dmf.Refused:
                    if random.random() < 0.3:
                        raise
            if random.random() < 0.3:
                raise ZeroDivisionError
    except (dmf.Refused, ZeroDivisionError):
        pass
    assert (network.problem(), network.flow(), network.value) == (text, plan, value)
    # A change drops what can be made again, which is the network's alone.
    if network.arcs:
        arc = network.arcs[0]
        network.cap(arc, arc.capacity)
        model.reply("cap", arc.number, arc.capacity)
    else:
        network.solve()
        model.reply("solve")


def step(model: Any, network: dmf.Network[str], random: Random) -> None:
    """One random command to both. They agree, also where it is refused."""
    word = random.choice(
        ["solve", "cap", "cap", "close", "add", "shut", "undo", "undo", "redo", "redo"]
    )
    arc, count = random.randint(1, max(1, len(network._kept.capacities))), random.choice(
        [0, 1, 1, 2, 3]
    )
    tail, head, node = (random.randint(1, model.present().nodes) for _ in range(3))
    amount = random.choice([0, 1, 2, 5, 9, 2**63])
    if word in ("cap", "close") and not network._kept.capacities:
        return
    handle = network._kept.handle(arc) if network._kept.capacities else None
    calls: dict[str, tuple[list[int], Callable[[], int]]] = {
        "solve": ([], lambda: network.solve().value),
        "cap": ([arc, amount], lambda: network.cap(handle, amount)),
        "close": ([arc], lambda: network.close(handle)),
        "add": (
            [tail, head, amount],
            lambda: (network.add(f"n{tail}", f"n{head}", amount), network.value)[1],
        ),
        "undo": ([count], lambda: network.undo(count)),
        "redo": ([count], lambda: network.redo(count)),
        "shut": ([node], lambda: network.shut(f"n{node}")),
    }
    numbers, call = calls[word]
    try:
        model.reply(word, *numbers)
    except Fault as fault:
        with pytest.raises(dmf.Refused) as caught:
            call()
        assert caught.value.text == str(fault)
    else:
        assert call() == model.present().value()


def compare(state: Any, network: dmf.Network[str]) -> None:
    opened = state.open_arcs()
    assert list(network.flow().values()) == [flow for _, flow in opened]
    assert [(arc.tail, arc.head) for arc in network.arcs] == [
        (f"n{arc.tail}", f"n{arc.head}") for arc, _ in opened
    ]
    assert [network.capacity(arc) for arc in network.arcs] == [arc.cap for arc, _ in opened]
    assert (network.value, network.flow().value) == (state.value(), state.value())
    text = "".join(line for line in network.problem().splitlines(True) if not line.startswith("c"))
    assert text.encode() == problem_text(state)
    if is_greatest(state):
        side, capacity = smallest_side(state)
        cut = network.cut()
        assert (cut.capacity, cut.side) == (capacity, frozenset(f"n{node}" for node in side))
        assert sum(map(network.capacity, cut.arcs)) == capacity
    else:
        with pytest.raises(dmf.FlowIsNotGreatest):
            network.cut()


def test_worked() -> None:
    graph = networkx.DiGraph()
    graph.add_weighted_edges_from(PIPES, weight="litres")
    with dmf.from_networkx(graph, "lake", "sea", capacity="litres") as network:
        assert (network.solve().value, network.cap(("town", "sea"), 1)) == (5, 3)


def test_undirected() -> None:
    graph = networkx.Graph()
    graph.add_edge("a", "b", capacity=3)
    graph.add_edge("c", "b", capacity=2)
    graph.add_edge("b", "b", capacity=9)
    with dmf.from_networkx(graph, "a", "c") as network:
        assert (network.solve()["b", "c"], len(network.arcs)) == (2, 5)


def test_multigraph() -> None:
    graph = networkx.MultiDiGraph()
    graph.add_edge("a", "b", key="old", capacity=3)
    graph.add_edge("a", "b", key="new", capacity=4)
    with dmf.from_networkx(graph, "a", "b") as network:
        assert (network.solve().value, network.close(("a", "b", "old"))) == (7, 4)


def test_refused() -> None:
    graph = networkx.DiGraph([("a", "b")])
    with pytest.raises(dmf.NoCapacity) as caught:
        dmf.from_networkx(graph, "a", "b")
    assert str(caught.value) == "no capacity: the edge ('a', 'b') has no attribute 'capacity'"
    graph["a"]["b"]["capacity"] = None
    with pytest.raises(dmf.NotANumber, match="None in .'a', 'b', None"):
        dmf.from_networkx(graph, "a", "b")
    graph["a"]["b"]["capacity"] = float("inf")
    with pytest.raises(dmf.NotANumber):
        dmf.from_networkx(graph, "a", "b")
    graph["a"]["b"]["capacity"] = 5
    with pytest.raises(dmf.NoSuchNode):
        dmf.from_networkx(graph, "a", "x")


def test_values() -> None:
    random = Random("networkx")
    for _ in range(20):
        graph = networkx.gnp_random_graph(
            12, 0.3, seed=random.randrange(10**6), directed=random.random() < 0.5
        )
        for _, _, data in graph.edges(data=True):
            data["capacity"] = random.randrange(20)
        with dmf.from_networkx(graph, 0, 11) as network:
            assert network.solve().value == networkx.maximum_flow_value(graph, 0, 11)
