"""Opens tables in Python: `dmf.read_table`."""

from __future__ import annotations

import os
from collections.abc import Iterable, Iterator, Mapping
from decimal import Decimal
from functools import partial
from typing import Any, Optional, Union, cast

from ..errors import TableFault
from ..quantity import number_in
from ..session.base import Program, bound
from ..session.runners import chosen
from ..state import NetworkState
from .arcs_and_places import UNLIMITED_WORD, Term
from .keywords import naming_keywords
from .loader import TableOptions, load_tables, plan_of_sheet, split_path
from .missing_ends import complete
from .other_columns import extra_of
from .problem_builder import NetworkTables, net_of
from .setting_question import amount_of, daily_of, shift_of, tanks_of, velocity_of
from .sheet import PIECE, Rows, Sheet, naming
from .table_answers import FoldedColumns, InnerNode, with_room
from .table_file import ReadOptions
from .table_network import TableNetwork
from .titles import DEMAND, LIMIT, SUPPLY
from .warnings import warnings
from .workbook import cell_texts

# A place, several, or how much each gives or takes at most, which is None if that has no limit.
Path = Union[str, "os.PathLike[str]"]
Terminals = Union[str, Iterable[str], Mapping[str, Any], None]


def network_of_plan(plan: NetworkTables, program: Program, history: Optional[int]) -> TableNetwork:
    """Return the network of a plan. Raises a `TableFault`, and what `Network` raises."""
    notes = [*plan.notes, *complete(plan)]
    net = net_of(plan)
    notes += warnings(plan, net)
    numbers: dict[Any, int] = dict(plan.arcs.places)
    numbers.update(
        (InnerNode(number, net.node_names[number - 1]), number)
        for number in range(len(numbers) + 1, len(net.node_names) + 1)
    )
    columns = FoldedColumns(
        numbers,
        net.tails,
        net.heads,
        net.row_names,
        net.described,
        net.inner_names,
        net.row_name,
    )
    nodes = list(numbers)
    kept: NetworkState[Any] = NetworkState(
        columns,
        with_room(net.capacities, net.described),
        nodes[net.source - 1],
        nodes[net.sink - 1],
        bound(history),
    )
    made = cast(TableNetwork, TableNetwork._of(kept, chosen(program)))
    made._session.program = program
    made.notes, made._load, made._rows = (
        notes,
        lambda: extra_of(plan.arcs, net.ways),
        range(1, net.row_count + 1, net.ways),
    )
    return made


@naming_keywords()
def read_table(
    table: Any,
    *,
    source: Terminals = None,
    sink: Terminals = None,
    limits: Mapping[str, Any] = {},
    sources: Optional[Path] = None,
    sinks: Optional[Path] = None,
    node_limits: Optional[Path] = None,
    places: Optional[Path] = None,
    columns: Mapping[str, str] = {},
    decimal: str = "",
    scale: Union[Decimal, int, None] = None,
    both_ways: bool = False,
    encoding: Optional[str] = None,
    raw_names: bool = False,
    missing: Union[str, int] = "",
    ignore: Iterable[str] = (),
    matrix: bool = False,
    velocity: Union[Decimal, float, None] = None,
    tanks: str = "",
    tolerance: Union[Decimal, float] = 0,
    needs: str = "",
    shift: Union[Decimal, float, None] = None,
    daily: Union[str, int] = "",
    program: Program = None,
    history: Optional[int] = None,
) -> TableNetwork:
    """Return the network of a table, read as `tools/dmf-problem` reads it (`man dmf-problem`).

    Parameters
    ----------
    table
        The path of a CSV file, a workbook or another file of `man dmf-tables`, with a sheet as in
        `net.xlsx#Rohre`; or a frame of pandas, or anything else that gives columns by their names.
    source, sink
        A place, several, or a mapping to the most that each gives or takes, with None for no limit.
        The default is what the table says, or else the only place that no arc enters, or leaves.
    limits
        The most that may pass through places.
    sources, sinks, node_limits, places
        Paths of tables with the same for `source`, `sink`, `limits`, or all of them.
    columns
        The titles of the columns `tail`, `head`, `capacity` and `name`, if they are not usual ones.
    decimal
        The decimal sign, if the table leaves it open.
    scale
        What numbers are multiplied by. The default is the least power of ten that makes them whole.
    both_ways
        Whether each row is two arcs, one each way.
    encoding
        How the tables are encoded, such as latin-1. By default it is detected.
    raw_names
        Whether names are read as they are, with an apostrophe before = + - @ if they have one.
    missing
        What a missing capacity is read as: 0 or "unlimited".
    ignore
        The titles of columns from which nothing is read; `extra` has them. In a matrix, also the
        first cells of rows, and `extra` has nothing.
    matrix
        Whether rows are tails, and the titles of the other columns heads.
    velocity
        In m/s: in a network of EPANET a pipe's capacity is this times its cross-section.
    tanks
        What the tanks of a network of EPANET are: "source" or "none".
    tolerance
        How far apart ends of lines on a map may lie that are one place, in the map's units.
    needs
        In a roster: the first text of the row that says how many people each shift needs. In a
        matrix: that of the row, or the title of the column, that says what places take.
    shift
        How much of what a person may work a shift takes, such as 8 hours.
    daily
        The most shifts of a day that one person works, or "all".
    program, history
        As those of `Network`.

    Raises
    ------
    TableFault
        If rows cannot be read; it names all of them.
    OSError
        If a file cannot be read.
    Error
        What `Network` raises.
    """
    given = {"sources": sources, "sinks": sinks, "node_limits": node_limits, "place_table": places}
    paths = {option: _path(option, path) for option, path in given.items() if path is not None}
    if str(missing) not in ("", "0", UNLIMITED_WORD):
        raise ValueError(f"a missing capacity is read as 0 or as {UNLIMITED_WORD!r}: {missing!r}")
    reading = ReadOptions(
        dict(columns),
        decimal,
        raw_names,
        str(missing),
        tuple(ignore),
        matrix,
        None if velocity is None else velocity_of(str(velocity)),
        tanks and tanks_of(tanks),
        amount_of(str(tolerance)),
        needs,
        None if shift is None else shift_of(str(shift)),
        str(daily) and daily_of(str(daily)),
    )
    given_ends = (SUPPLY, _most(source)), (DEMAND, _most(sink))
    ends = {kind: most for kind, most in given_ends if most is not None}
    wanted = TableOptions(
        reading,
        encoding,
        None if scale is None else Decimal(scale),
        both_ways,
        (),
        (),
        paths,
        _read,
        ends,
    )
    if isinstance(table, (str, os.PathLike)):
        path = os.fspath(table)
        plan = load_tables(wanted, path, _read(split_path(path)[0]))
    else:
        plan = plan_of_sheet(wanted, _sheet_of_frame(table), [])
    for kind, most in (*ends.items(), (LIMIT, limits)):
        plan.terms += _terms_of(kind, most, plan)
    with naming(plan.arcs.path):
        return network_of_plan(plan, program, history)


def _path(option: str, given: Any) -> str:
    if not isinstance(given, (str, os.PathLike)):
        instead = {"sources": "source", "sinks": "sink", "node_limits": "limits"}.get(
            option, "limits"
        )
        raise TypeError(
            f"expected the path of a table of places, not {given!r}: `{instead}` takes the "
            "places themselves"
        )
    return os.fspath(given)


def _read(path: str) -> bytes:
    with open(path, "rb") as file:
        return file.read()


def _most(ends: Terminals) -> Optional[Mapping[str, Any]]:
    """Return places with the most that each gives or takes; None if none were given."""
    if isinstance(ends, str):
        ends = [ends]
    return ends if ends is None or isinstance(ends, Mapping) else dict.fromkeys(ends)


def _terms_of(kind: str, most: Mapping[str, Any], plan: NetworkTables) -> Iterator[Term]:
    for place, quantity in most.items():
        yield Term(kind, place, None if quantity is None else _quantity(quantity, plan))


def _quantity(given: Any, plan: NetworkTables) -> Decimal:
    if isinstance(given, str):
        return number_in(given, plan.arcs.amounts.sign)
    return Decimal(repr(given)) if isinstance(given, float) else Decimal(given)


def _sheet_of_frame(frame: Any) -> Sheet:
    """Return a frame as a sheet whose first row has the titles."""
    titles = list(frame.keys()) if hasattr(frame, "keys") else list(frame.columns)
    columns = [frame[title] for title in titles]
    cells = [
        cell_texts(column.tolist() if hasattr(column, "tolist") else [*column])
        for column in columns
    ]
    if len({len(column) for column in cells}) > 1:
        raise TableFault(
            "the columns have several lengths: "
            f"{', '.join(sorted({str(len(column)) for column in cells}))}"
        )
    titled = [[str(title), *column] for title, column in zip(titles, cells)]
    return Sheet("", partial(_rows, titled))


def _rows(columns: list[list[str]]) -> Iterator[Rows]:
    """Yield the rows of a table with these columns."""
    if not columns:
        yield Rows(range(1, 2), [[]])
        return
    count = len(columns[0])
    for begin in range(0, count, PIECE):
        lines = range(begin + 1, min(begin + PIECE, count) + 1)
        yield Rows(lines, None, [column[begin : begin + PIECE] for column in columns])
