"""What bench/client measures about the client, and the same with scipy and igraph: each row of its
table, by the number of arcs."""

from __future__ import annotations

import contextlib
import os
import random
import resource
import subprocess
import sys
from array import array
from collections.abc import Callable, Iterator
from pathlib import Path
from typing import Any, NamedTuple

from setting import BENCH, CACHE, DMF, library

sys.path.insert(0, str(BENCH.parent / "clients" / "python"))
os.environ.setdefault("DMF", str(DMF))
# The program is measured unless `by_library` is called.
os.environ["DMF_LIBRARY"] = ""
CASES = 50


class Took(NamedTuple):
    """The cost of a row: processor seconds, the peak memory of Python in bytes, and how much of it
    was in use before; and the value that was found, or the sum of several."""

    seconds: float
    memory: int = 0
    before: int = 0
    value: int = 0


def by_library() -> None:
    """Let the C library run the networks of this process."""
    os.environ["DMF_LIBRARY"] = str(library())


def drawn(arcs: int) -> Iterator[tuple[int, int, int]]:
    """Yield the arcs of a random network in the form that bench/generate.cpp makes: 5 for each
    node, with capacities from 1 to 1,000."""
    draw = random.Random(1990)
    nodes = arcs // 5
    for _ in range(arcs - nodes // 10):
        yield draw.randrange(nodes), draw.randrange(nodes), draw.randint(1, 1000)
    for _ in range(nodes // 20):
        yield nodes, draw.randrange(nodes), 1000
    for _ in range(nodes // 20):
        yield draw.randrange(nodes), nodes + 1, 1000


def arrays_of(arcs: int) -> list[Any]:
    """Return the columns as numpy arrays, which are drawn once."""
    import numpy

    file = CACHE / f"drawn-{arcs}.npy"
    if not file.exists():
        CACHE.mkdir(parents=True, exist_ok=True)
        columns = [array("q") for _ in range(3)]
        for row in drawn(arcs):
            for column, number in zip(columns, row):
                column.append(number)
        numpy.save(file, numpy.array(columns))
    return [column.copy() for column in numpy.load(file)]


def rows_of(arcs: int) -> list[tuple[int, int, int]]:
    return list(zip(*(column.tolist() for column in arrays_of(arcs))))


def in_memory(name: str) -> int:
    """Return a line of /proc/self/status, in bytes."""
    lines = Path("/proc/self/status").read_text().splitlines()
    return next(int(line.split()[1]) * 1024 for line in lines if line.startswith(name))


def spent(child: int = 0) -> float:
    """Return the processor seconds of this process, of its children that have ended, and of one
    that is running."""
    seconds = sum(
        sum(resource.getrusage(who)[:2]) for who in (resource.RUSAGE_SELF, resource.RUSAGE_CHILDREN)
    )
    if child:
        fields = Path(f"/proc/{child}/stat").read_text().rsplit(")", 1)[1].split()
        seconds += (int(fields[11]) + int(fields[12])) / os.sysconf("SC_CLK_TCK")
    return seconds


def child_of(made: Any) -> int:
    """Return the process of a network's session, or 0 if the library runs it."""
    process = getattr(made._session, "process", None)
    return int(process.pid) if process else 0


def measured(act: Callable[[], object], child: int = 0) -> Took:
    """Measure a call, and return the whole number that it returns, if it does. The peak of memory
    is counted from here on."""
    with contextlib.suppress(OSError):
        Path("/proc/self/clear_refs").write_text("5")
    before, began = in_memory("VmRSS"), spent(child)
    value = act()
    return Took(
        spent(child) - began, in_memory("VmHWM"), before, value if isinstance(value, int) else 0
    )


def source_and_sink(arcs: int) -> tuple[int, int]:
    return arcs // 5, arcs // 5 + 1


def picked(arcs: int) -> list[int]:
    """Return the numbers of the arcs that are closed, each in its own case."""
    return random.Random(7).sample(range(1, arcs), CASES)


def made_of_arrays(arcs: int) -> Any:
    import dmf

    source, sink = source_and_sink(arcs)
    return dmf.Network.from_arrays(*arrays_of(arcs), source=source, sink=sink)


def from_arrays(arcs: int) -> Took:
    import dmf

    columns, (source, sink) = arrays_of(arcs), source_and_sink(arcs)
    return measured(lambda: dmf.Network.from_arrays(*columns, source=source, sink=sink).end())


def from_rows(arcs: int) -> Took:
    import dmf

    rows, (source, sink) = rows_of(arcs), source_and_sink(arcs)
    return measured(lambda: dmf.Network(rows, source, sink).end())


def named_path(arcs: int) -> Path:
    return CACHE / f"named-{arcs}.max"


def named_file(arcs: int) -> Path:
    """Make a file with a name for each node and arc, in a process of its own, whose memory is not
    counted."""
    path = named_path(arcs)
    if not path.exists():
        subprocess.run(
            [sys.executable, str(BENCH / "client"), "--row", "write", "--arcs", str(arcs)],
            check=True,
            stdout=subprocess.DEVNULL,
        )
    return path


def write_named(arcs: int) -> Took:
    import dmf

    source, sink = source_and_sink(arcs)
    named = [
        (f"n{tail}", f"n{head}", capacity, f"arc {at}")
        for at, (tail, head, capacity) in enumerate(rows_of(arcs))
    ]
    with dmf.Network(named, f"n{source}", f"n{sink}") as made:
        named_path(arcs).write_text(made.problem())
    return Took(0)


def read(arcs: int) -> Took:
    import dmf

    path = named_file(arcs)
    return measured(lambda: dmf.read(path).end())


def names(arcs: int) -> Took:
    import dmf

    with dmf.read(named_file(arcs)) as made:
        return measured(lambda: made.arc("arc 1"))


def value(arcs: int) -> Took:
    made = made_of_arrays(arcs)
    # The time of the program itself is not counted.
    return measured(lambda: made.solve().value)


def flows(arcs: int) -> Took:
    made = made_of_arrays(arcs)
    plan = made.solve()
    return measured(plan.array, child_of(made))


def solved(arcs: int) -> Took:
    import dmf

    columns, (source, sink) = arrays_of(arcs), source_and_sink(arcs)

    def act() -> int:
        with dmf.Network.from_arrays(*columns, source=source, sink=sink) as made:
            plan = made.solve()
            plan.array()
            return plan.value

    return measured(act)


def cases(arcs: int) -> Took:
    made = made_of_arrays(arcs)
    made.solve()
    closed = [made._kept.handle(number) for number in picked(arcs)]

    def value_without(arc: Any) -> int:
        with made.try_out():
            made.close(arc)
            return int(made.solve().value)

    return measured(lambda: sum(map(value_without, closed)), child_of(made))


def matrix(columns: Any, capacity: Any, sink: int) -> Any:
    from scipy.sparse import csr_matrix

    return csr_matrix((capacity.astype("int32"), tuple(columns[:2])), shape=(sink + 1, sink + 1))


def scipy_arrays(arcs: int) -> Took:
    columns, (_, sink) = arrays_of(arcs), source_and_sink(arcs)
    matrix([column[:1] for column in columns], columns[2][:1], sink)
    return measured(lambda: matrix(columns, columns[2], sink))


def scipy_rows(arcs: int) -> Took:
    import numpy

    rows, (_, sink) = rows_of(arcs), source_and_sink(arcs)
    matrix(numpy.zeros((3, 1), int), numpy.zeros(1, int), sink)

    def act() -> None:
        columns = numpy.array(rows).T
        matrix(columns, columns[2], sink)

    return measured(act)


def scipy_solved(arcs: int) -> Took:
    from scipy.sparse.csgraph import maximum_flow

    columns, (source, sink) = arrays_of(arcs), source_and_sink(arcs)
    return measured(
        lambda: int(maximum_flow(matrix(columns, columns[2], sink), source, sink).flow_value)
    )


def scipy_cases(arcs: int) -> Took:
    from scipy.sparse.csgraph import maximum_flow

    columns, (source, sink) = arrays_of(arcs), source_and_sink(arcs)

    def value_without(number: int) -> int:
        capacity = columns[2].copy()
        capacity[number - 1] = 0
        return int(maximum_flow(matrix(columns, capacity, sink), source, sink).flow_value)

    return measured(lambda: sum(map(value_without, picked(arcs))))


def graph(columns: Any, sink: int) -> Any:
    import igraph
    import numpy

    return igraph.Graph(n=sink + 1, edges=numpy.stack(columns[:2], 1), directed=True)


def igraph_arrays(arcs: int) -> Took:
    columns, (_, sink) = arrays_of(arcs), source_and_sink(arcs)
    graph([column[:1] for column in columns], sink)

    def act() -> None:
        graph(columns, sink).es["capacity"] = columns[2].tolist()

    return measured(act)


def igraph_rows(arcs: int) -> Took:
    import igraph

    rows, (_, sink) = rows_of(arcs), source_and_sink(arcs)

    def act() -> None:
        made = igraph.Graph(n=sink + 1, edges=[row[:2] for row in rows], directed=True)
        made.es["capacity"] = [row[2] for row in rows]

    return measured(act)


def igraph_solved(arcs: int) -> Took:
    columns, (source, sink) = arrays_of(arcs), source_and_sink(arcs)
    graph([column[:1] for column in columns], sink)
    return measured(
        lambda: int(graph(columns, sink).maxflow_value(source, sink, columns[2].tolist()))
    )


def igraph_cases(arcs: int) -> Took:
    columns, (source, sink) = arrays_of(arcs), source_and_sink(arcs)
    made, capacities = graph(columns, sink), columns[2].tolist()

    def value_without(number: int) -> int:
        changed = [*capacities[: number - 1], 0, *capacities[number:]]
        return int(made.maxflow_value(source, sink, changed))

    return measured(lambda: sum(map(value_without, picked(arcs))))


class Row(NamedTuple):
    """A row of the table: what is measured, how dmf, scipy and igraph do it, and the share of the
    arcs that it uses."""

    name: str
    dmf: Callable[[int], Took]
    scipy: Callable[[int], Took] | None = None
    igraph: Callable[[int], Took] | None = None
    part: int = 1


ROWS: dict[str, Row] = {
    "arrays": Row("network from arrays", from_arrays, scipy_arrays, igraph_arrays),
    "rows": Row("network from tuples", from_rows, scipy_rows, igraph_rows),
    "read": Row("`dmf.read`, all named", read),
    "names": Row("first arc by its name", names),
    "value": Row("`solve().value`", value),
    "array": Row("flows as an array", flows),
    "solved": Row("arrays to flows", solved, scipy_solved, igraph_solved),
    "cases": Row(f"{CASES} cases, a tenth of the arcs", cases, scipy_cases, igraph_cases, 10),
}
# The row whose memory is shown in a row of its own.
LARGEST = "solved"
