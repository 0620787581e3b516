"""GraphML files and edge lists, by networkx: a row for each edge, with its attributes."""

from __future__ import annotations

import importlib
import warnings
from collections.abc import Iterable, Iterator, Mapping, Sequence
from functools import partial
from typing import Any

from ..errors import TableFault
from .other_kinds import markup_of
from .sheet import Rows, Sheet, cell_of, text_cell
from .table_file import TableFile
from .text_bytes import text_of
from .workbook import cell_text

LISTS = (".edgelist", ".edges")
ENDS = ["source", "target"]
Row = tuple[int, list[str]]


def is_one(file: TableFile) -> bool:
    """Return True if a file is one of GraphML, or its name ends as that of an edge list."""
    return file.ending in (".graphml", *LISTS) or markup_of(file.data) == "a GraphML file"


def sheets_of(file: TableFile) -> list[Sheet]:
    """Return the edges of a graph, and its nodes if these have attributes. Raises a
    `TableFault`."""
    text, notes = text_of(file.data, file.encoding)
    networkx = importlib.import_module("networkx")
    if file.ending in LISTS:
        notes.append("rows lead from the first place of an edge to the second")
        return [_sheet(file.path, _listed(networkx, text, file), notes)]
    return _graphml(networkx, file, notes)


def _graphml(networkx: Any, file: TableFile, notes: list[str]) -> list[Sheet]:
    try:
        with warnings.catch_warnings(record=True) as told:
            warnings.simplefilter("always")
            text = file.data.decode(_declared(file))
            graph = networkx.parse_graphml(text, force_multigraph=True)
        notes += dict.fromkeys(f"networkx: {warning.message}" for warning in told)
    except Exception as error:
        line = getattr(error, "position", (0, 0))[0]
        why = str(error).strip("'\"")[:200] or type(error).__name__
        raise TableFault(f"the GraphML file cannot be read: {why}", line) from None
    edges = [(tail, head, values) for tail, head, values in graph.edges(data=True)]
    titles = _titles(values for _, _, values in edges)
    ways = [] if graph.is_directed() else ["direction"]
    rows: list[Row] = [(1, [*ENDS, *titles, *ways])]
    for line, (tail, head, values) in enumerate(edges, 2):
        cells = [_cell(values.get(title), file) for title in titles]
        rows.append((line, [*_names((tail, head), file), *cells, *["both" for _ in ways]]))
    if ways:
        notes.append("the graph is undirected: each edge leads both ways")
    sheets = [_sheet(file.path, rows, notes)]
    if titles := _titles(values for _, values in graph.nodes(data=True)):
        nodes: list[Row] = [(1, ["place", *titles])]
        for line, (node, values) in enumerate(graph.nodes(data=True), 2):
            cells = [_cell(values.get(title), file) for title in titles]
            nodes.append((line, [*_names((node,), file), *cells]))
        sheets.append(_sheet(f"{file.path}#nodes", nodes, []))
    return sheets


def _declared(file: TableFile) -> str:
    """Return the encoding of an XML file, for a reader that takes a text."""
    return file.encoding or (
        "utf-16" if file.data[:2] in (b"\xff\xfe", b"\xfe\xff") else "utf-8-sig"
    )


def _listed(networkx: Any, text: str, file: TableFile) -> list[Row]:
    """Return the rows of an edge list: two places, and then values, or a dictionary of them, whose
    keys are titles then. These stand in no line of the file."""
    found: list[tuple[int, Any, Any, Mapping[str, Any]]] = []
    for line, whole in enumerate(text.splitlines(), 1):
        if edge := whole.partition("#")[0].strip():
            found.append((line, *_edge(networkx, edge, line)))
    if not found:
        raise TableFault("the file has no edge")
    titles = _titles(values for *_, values in found)
    rows: list[Row] = []
    if not all(title.isdecimal() for title in titles):
        rows.append((0, [*ENDS, *titles]))
    for line, tail, head, values in found:
        cells = [_cell(values.get(title), file) for title in titles]
        rows.append((line, [*_names((tail, head), file), *cells]))
    return rows


def _edge(networkx: Any, words: str, line: int) -> tuple[Any, Any, Mapping[str, Any]]:
    """Return an edge, and its values: by their keys, or by their places in the line."""
    count = len(words.split())
    if count < 2:
        raise TableFault("an edge has two places, and this line one word", line)
    data = True if "{" in words else [(str(at), str) for at in range(2, count)]
    try:
        graph = networkx.parse_edgelist([words], create_using=networkx.MultiDiGraph, data=data)
        (edge,) = graph.edges(data=True)
    except (TypeError, IndexError, ValueError) as error:
        raise TableFault(f"the edge cannot be read: {str(error)[:200]}", line) from None
    tail, head, values = edge
    return tail, head, values


def _titles(records: Iterable[Mapping[Any, Any]]) -> list[str]:
    """Return the names of all attributes, each once."""
    return list(dict.fromkeys(str(key) for values in records for key in values))


def _names(nodes: Iterable[Any], file: TableFile) -> list[str]:
    return [cell_of(str(node), is_raw=file.reading.raw_names) for node in nodes]


def _cell(value: Any, file: TableFile) -> str:
    is_text = isinstance(value, str)
    return text_cell(value, is_raw=file.reading.raw_names) if is_text else cell_text(value)


def _sheet(path: str, rows: list[Row], notes: Sequence[str]) -> Sheet:
    return Sheet(path, partial(_read, rows), tuple(notes))


def _read(rows: list[Row]) -> Iterator[Rows]:
    yield Rows([line for line, _ in rows], [list(cells) for _, cells in rows])
