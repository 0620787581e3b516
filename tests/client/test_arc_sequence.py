"""The arcs of a network as a sequence: as a list of them would be, but made lazily, and kept while
the network is the same."""

from __future__ import annotations

import time
from random import Random
from typing import Any

import pytest
from client_shared import dmf, pipes


def test_as_a_list() -> None:
    """Beside a list of the handles, which are taken one by one, while arcs close and are added."""
    random = Random("arcs")
    rows: list[Any] = [
        (random.randrange(6), random.randrange(6), 3, f"k{number}") for number in range(40)
    ]
    with dmf.Network(rows, 0, 5, nodes=range(6)) as network:
        listed = [network.arc(row[3]) for row in rows]
        for turn in range(60):
            arcs = network.arcs
            assert (list(arcs), len(arcs), arcs == listed) == (listed, len(listed), True)
            count = len(listed)
            assert [arcs[place] for place in range(count)] == listed
            assert [arcs[-place] for place in range(1, count + 1)] == listed[::-1]
            assert list(reversed(arcs)) == listed[::-1]
            for cut in slice(3, 9), slice(None, None, 4), slice(-5, None), slice(9, 2, -3):
                assert arcs[cut] == listed[cut]
            for place in count, -count - 1:
                with pytest.raises(IndexError):
                    arcs[place]
            arc = random.choice(arcs)
            assert (arc in arcs, listed.index(arc), arcs.index(arc)) == (
                True,
                arcs.index(arc),
                listed.index(arc),
            )
            if turn % 3 == 2:
                listed.append(network.add(1, 2, 1, f"new {turn}"))
                assert listed[-1] not in arcs
            else:
                network.close(arc)
                listed.remove(arc)
                assert arc not in network.arcs
            # What was taken before is as it was.
            assert len(arcs) == count


def test_kept_while_the_network_is_the_same() -> None:
    with pipes() as network:
        arcs = network.arcs
        network.flow()
        assert network.arcs is arcs
        network.close(arcs[0])
        assert network.arcs is not arcs and len(network.arcs) == 4
        network.undo()
        assert network.arcs == arcs
        with pytest.raises((TypeError, AttributeError)):
            arcs[0] = arcs[1]  # type: ignore[index]


def test_of_a_table(tmp_path: Any) -> None:
    """The arcs of a table alone: those at its two sources are not."""
    path = tmp_path / "pipes.csv"
    path.write_text("from,to,capacity,name\na,c,3,x\nb,c,2,y\nc,d,4,z\n")
    with dmf.read_table(path, source={"a": 2, "b": 1}, sink="d") as network:
        assert [arc.key for arc in network.arcs] == ["x", "y", "z"]
        assert network.arcs is network.arcs
        assert [network.arcs[place].key for place in (0, 2, -2)] == ["x", "z", "y"]
        network.close("y")
        assert [arc.key for arc in network.arcs] == ["x", "z"]
        assert "<Arc 1: 'a' to 'c', 'x'>" in repr(network.arcs)


def test_shown() -> None:
    with dmf.Network([(0, 1, 1)] * 25, 0, 1) as network:
        shown = repr(network.arcs)
        assert shown.startswith("[<Arc 1: 0 to 1>, <Arc 2: 0 to 1>, ")
        assert shown.endswith("<Arc 20: 0 to 1>, .. 5 more]")
    with pipes() as network:
        assert repr(network.arcs) == repr(list(network.arcs))


def test_looking_at_one_takes_no_time() -> None:
    """A thousand looks at a network of 200,000 arcs, some of which are closed, take less than one
    list of all."""
    count = 200_000
    with dmf.Network.from_arrays(
        [0, 1] * (count // 2), [1, 2] * (count // 2), [1] * count, source=0, sink=2
    ) as network:
        for number in range(7):
            network.close(network.arcs[1_000 * number])
        began = time.process_time()
        for place in range(0, 100_000, 100):
            network.arcs[place]
        looks = time.process_time() - began
        began = time.process_time()
        assert len(list(network.arcs)) == count - 7
        assert looks < time.process_time() - began
