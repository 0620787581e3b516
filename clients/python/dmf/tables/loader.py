"""The tables that options name, read to a problem: the table of arcs, in a CSV file or in a sheet
of a workbook, and tables of its places."""

from __future__ import annotations

import argparse
import contextlib
import os
from collections.abc import Callable, Collection, Iterator, Mapping, Sequence
from dataclasses import dataclass, field, replace
from decimal import Decimal
from functools import cached_property, partial
from typing import Any, Optional

from ..errors import OptionFault, TableFault
from ..files import read_file, standard_input
from ..quantity import Measure
from ..text.lexical import fields, lines
from ..text.problem_text import problem_in
from ..text.spelling import quoted_name
from ..text.table_comments import TableComments, described, table_comments
from .arcs_and_places import read_arcs, read_places, terms_of
from .built_problem import BuiltProblem, problem_text
from .file_kinds import FileKind, has_table, kind_of, refuse_settings, sheets_of
from .headings import PLACE_COLUMNS, STATES, spoken
from .matrix_arcs import matrix_tables
from .missing_ends import complete
from .other_columns import Extra, extra_in, extra_of, left_out
from .problem_builder import KINDS, NetworkTables, net_of, term_of
from .readers import Table
from .roster_arcs import roster_tables
from .row_states import lead
from .setting_question import answered
from .sheet import Faults, Rows, Sheet, naming
from .sheet_choice import arcs_sheet, only_sheet, sheet_of_name
from .table_file import ReadOptions, TableFile
from .titles import DEMAND, LIMIT, NAME, SUPPLY
from .warnings import warnings

# By the option of a table of places, what it says.
PLACE_TABLES: dict[str, Sequence[str]] = {
    "sources": [SUPPLY],
    "sinks": [DEMAND],
    "node_limits": [LIMIT],
    "place_table": PLACE_COLUMNS,
}


@dataclass(frozen=True)
class TableOptions:
    """The options for tables: how they are read and encoded, the scale, whether rows go both ways,
    the words that name sources and sinks, the files of tables of places, by the option, the
    function that reads these, and the places of each kind that are `named` elsewhere."""

    reading: ReadOptions = ReadOptions()
    encoding: Optional[str] = None
    scale: Optional[Decimal] = None
    both_ways: bool = False
    source: Sequence[str] = ()
    sink: Sequence[str] = ()
    tables: Mapping[str, str] = field(default_factory=dict)
    read: Callable[[str], bytes] = read_file
    named: Mapping[str, Collection[str]] = field(default_factory=dict)

    @property
    def ends(self) -> dict[str, list[str]]:
        """The places that options name as sources and sinks, by `supply` and `demand`."""
        given = zip(KINDS, (self.source, self.sink))
        return {kind: [*words, *self.named.get(kind, ())] for kind, words in given}

    @property
    def kinds_named(self) -> set[str]:
        """The kinds, out of supplies, demands and limits, that these options name."""
        told = {kind for option in self.tables for kind in PLACE_TABLES[option]}
        return {*self.named, *(kind for kind, words in self.ends.items() if words), *told}


def split_path(path: str) -> tuple[str, str]:
    """Return the path of a file, and the name of a sheet in it, which may stand after a `#`."""
    file, mark, sheet = path.rpartition("#")
    return (file, sheet) if mark and file and not os.path.exists(path) else (path, "")


def data_of(path: Optional[str]) -> bytes:
    """Return the bytes of a table's file, or of standard input if there is no path."""
    return standard_input().read() if path is None else read_file(split_path(path)[0])


@dataclass
class Stages:
    """What was found in a file so far, also if its reading fails then: the file, its kind, its
    sheets, the sheet of the arcs, their table, and the plan. `watch` is called with the line up to
    which the arcs are read, again and again, and with 0 at the end."""

    file: Optional[TableFile] = None
    kind: Optional[FileKind] = None
    sheets: Sequence[Sheet] = ()
    sheet: Optional[Sheet] = None
    table: Optional[Table] = None
    plan: Optional[NetworkTables] = None
    watch: Optional[Callable[[int], None]] = None


def load_tables(
    wanted: TableOptions, path: Optional[str], data: bytes, stages: Optional[Stages] = None
) -> NetworkTables:
    """Return the plan of the table of arcs in these bytes, and note the stages. Raises a
    `TableFault`, and a `FileFault` if another file cannot be read."""
    stages = stages or Stages()
    told, name = split_path(path or "")
    file = TableFile(data, told, wanted.encoding, wanted.reading, 3, wanted.read)
    with naming(told):
        stages.file, stages.kind = file, kind_of(file)
        refuse_settings(file)
        stages.sheets = sheets_of(file)
        stages.sheet, others = arcs_sheet(file, stages.sheets, name)
        if stages.watch:
            read = partial(_watched, stages.sheet.read, stages.watch)
            stages.sheet = replace(stages.sheet, read=read)
    stages.plan = plan_of_sheet(wanted, stages.sheet, others, stages)
    return stages.plan


def _watched(read: Callable[[], Iterator[Rows]], watch: Callable[[int], None]) -> Iterator[Rows]:
    """Yield rows, and tell a watcher how far that is."""
    try:
        for rows in read():
            yield rows
            watch(rows.lines[-1] if rows.lines else 0)
    finally:
        watch(0)


def plan_of_sheet(
    wanted: TableOptions, sheet: Sheet, others: Sequence[Sheet], stages: Optional[Stages] = None
) -> NetworkTables:
    """Return the plan of the table of arcs in a sheet, beside which other sheets may be of its
    places, and note the table. Raises what `load_tables` raises."""
    with naming(sheet.path):
        table, others = _table_of(sheet, others, wanted)
    if stages:
        stages.table = table
    plan = NetworkTables(table, [], lead(table, both_ways=wanted.both_ways), wanted.scale)
    plan.notes += [*_told(table), *table.sheet.notes]
    for kind, words, option in (SUPPLY, wanted.source, "sources"), (DEMAND, wanted.sink, "sinks"):
        plan.terms += [term_of(kind, word, table) for word in words]
        if option in wanted.tables:
            _add_file(plan, wanted, option)
    for option in "node_limits", "place_table":
        if option in wanted.tables:
            _add_file(plan, wanted, option)
    titles = [title.text for title in table.layout.titles]
    faults = Faults(table.path, titles, table.sheet.row_names)
    plan.terms += terms_of(table.said, table.layout, faults, wanted.reading.sign, table.amounts)
    faults.judge()
    for other in others:
        _add_beside(plan, other, wanted)
    return plan


def _table_of(
    sheet: Sheet, others: Sequence[Sheet], wanted: TableOptions
) -> tuple[Table, Sequence[Sheet]]:
    """Return the table of arcs in a sheet, and the sheets of its places. Raises a `TableFault`."""
    reading = wanted.reading
    matrix = matrix_tables(sheet, reading, wanted.ends)
    cross = matrix or roster_tables(sheet, reading)
    if cross is None:
        return read_arcs(sheet, reading), others
    if wanted.both_ways and not matrix:
        raise TableFault("the table is a roster, whose rows lead one way: leave out --both-ways")
    with _without_columns():
        table = read_arcs(cross.arcs, replace(reading, titles={}, ignored=()))
    cross.add_places(table)
    return table, [*(others if matrix else ()), *([cross.places] if cross.places else ())]


@contextlib.contextmanager
def _without_columns() -> Iterator[None]:
    """Name no columns in the faults of arcs whose columns the file does not have."""
    try:
        yield
    except TableFault as fault:
        for it in (fault, *fault.others):
            it.column = 0
        raise


def _add_beside(plan: NetworkTables, sheet: Sheet, wanted: TableOptions) -> None:
    """Add what a sheet of places in the file of the arcs says. If it gives way, it says nothing of
    what options name; else it counts only if they name no table of places."""
    if sheet.gives_way:
        before, headings, named = len(plan.terms), len(plan.headings), wanted.kinds_named
        _add_places(plan, sheet, PLACE_COLUMNS, wanted)
        # Nobody wrote these titles.
        del plan.headings[headings:]
        said = plan.terms[before:]
        plan.terms[before:] = [term for term in said if term.kind not in named]
        for kind, noun in (SUPPLY, "supplies"), (DEMAND, "demands"), (LIMIT, "limits"):
            if kind in named and any(term.kind == kind for term in said):
                plan.notes.append(f"the {noun} of the file are left out, since options name others")
    elif not wanted.tables:
        plan.notes.append(
            f"the sheet {quoted_name(sheet.name)} says what places give, take or" " let through"
        )
        _add_places(plan, sheet, PLACE_COLUMNS, wanted)


def _told(table: Table) -> Iterator[str]:
    """Yield what was taken for what, and what else was taken for granted."""
    amounts = table.amounts
    unit = amounts.unit if amounts.unit == amounts.named_unit else ""
    dropped = () if table.said else PLACE_COLUMNS
    told = table.sheet.taken or table.layout.told(unit, table.others, dropped)
    yield told + ("; the decimal sign is a comma" if amounts.sign == "," else "")
    yield from table.layout.notes
    yield from table.notes


def _add_file(plan: NetworkTables, wanted: TableOptions, option: str) -> None:
    """Add what a table of places says."""
    path = wanted.tables[option]
    told, name = split_path(path)
    file = TableFile(wanted.read(told), told, wanted.encoding, wanted.reading, 2, wanted.read)
    with naming(told):
        sheets = sheets_of(file)
        sheet = sheet_of_name(file, sheets, name) if name else only_sheet(sheets, name)
    _add_places(plan, sheet, PLACE_TABLES[option], wanted)


def _add_places(
    plan: NetworkTables, sheet: Sheet, kinds: Sequence[str], wanted: TableOptions
) -> None:
    with naming(sheet.path):
        terms, headings = read_places(sheet, kinds, wanted.reading, plan.arcs.amounts)
    plan.terms += terms
    plan.headings += headings


def names_terminals(words: argparse.Namespace) -> bool:
    """Return True if the arguments name a source or a sink."""
    return bool(words.source or words.sink) or words.sources is not None or words.sinks is not None


def says_table(words: argparse.Namespace) -> bool:
    """Return True if the arguments say something of a table."""
    given = [words.scale, words.node_limits, words.place_table, words.encoding]
    return (
        names_terminals(words)
        or bool(words.titles or words.both_ways or words.decimal)
        or bool(words.ignore or words.missing or words.matrix or words.tanks)
        or words.velocity is not None
        or words.tolerance is not None
        or bool(words.needs or words.daily or words.shift is not None)
        or any(it is not None for it in given)
    )


def wanted_of(words: argparse.Namespace) -> TableOptions:
    """Return what the arguments say of the tables."""
    given = {option: getattr(words, option) for option in PLACE_TABLES}
    tables = {option: path for option, path in given.items() if path is not None}
    reading = ReadOptions(
        words.titles,
        words.decimal,
        words.raw_names,
        words.missing,
        tuple(words.ignore),
        words.matrix,
        words.velocity,
        words.tanks,
        words.tolerance or Decimal(0),
        words.needs or "",
        words.shift,
        words.daily or "",
    )
    return TableOptions(
        reading,
        words.encoding,
        words.scale,
        words.both_ways,
        tuple(words.source),
        tuple(words.sink),
        tables,
    )


# In how many of its first lines the problem line of a file is looked for.
MOST_HEAD_LINES = 100_000
# What the first line of a table has.
MARKS = b",;|"


@dataclass(frozen=True)
class LoadedProblem:
    """A problem with comments, as `dmf-problem` writes it. `given` is its text, which is empty if
    it was made here: then `net` has the problem, and `plan` the tables that it was made from.
    `noun` is the table's word for an arc, if its titles have one. `notes` say what looks like a
    mistake, and what was assumed. `raw_names` says that names stand unprotected in a table. `found`
    has the options that say what was found: titles of columns, the source, the sink."""

    path: str
    given: bytes
    noun: str = ""
    notes: tuple[str, ...] = ()
    raw_names: bool = False
    plan: Optional[NetworkTables] = field(default=None, repr=False, compare=False)
    found: Mapping[str, Any] = field(default_factory=dict)
    net: Optional[BuiltProblem] = field(default=None, repr=False, compare=False)

    @cached_property
    def text(self) -> bytes:
        """Return the text of the problem. That of a large table takes a second to write."""
        return problem_text(self.net).encode() if self.net else self.given

    @cached_property
    def described(self) -> TableComments:
        """Return what the comments say of the problem's table."""
        return described(table_comments(self.net.described).encode() if self.net else self.given)

    @property
    def measure(self) -> Measure:
        """Return how the problem's numbers stand for quantities."""
        return self.described.measure

    @cached_property
    def extra(self) -> Extra:
        """Return the columns of the table that were read for nothing."""
        return (
            extra_of(self.plan.arcs, 1 + self.plan.both_ways) if self.plan else extra_in(self.text)
        )


def read_subject(
    words: argparse.Namespace, *, in_doubt: bool = False, stages: Optional[Stages] = None
) -> LoadedProblem:
    """Return the problem that the words name, and note the stages of a table. Where nothing tells
    whether a file has a problem, it has one if `in_doubt`. Raises a `TableFault`, a `FileFault` for
    a file that cannot be read, and an `OptionFault`."""
    try:
        data = problem_in(data_of(words.path))
        if is_problem(words.path, data, in_doubt=in_doubt and not says_table(words)):
            if says_table(words):
                raise OptionFault(
                    f"{words.path} has a problem, which names its own source and sink: the options "
                    "are for tables"
                )
            return LoadedProblem(
                words.path, data, notes=tuple(left_out(data)), raw_names=words.raw_names
            )
        return answered(words, lambda: subject_of(wanted_of(words), words.path, data, stages))
    except TableFault as fault:
        fault.name_path(words.path)
        raise


def is_problem(path: str, data: bytes, *, in_doubt: bool = False) -> bool:
    """Return True if a file has a problem, by its first line that is not a comment, or by its name.
    If neither says so, a workbook has none, nor has a file with the name of a table or with a
    comma, a semicolon or a bar in that line; any other has one if `in_doubt`."""
    head = lines(b"\n".join(data.split(b"\n", MOST_HEAD_LINES)[:MOST_HEAD_LINES]))
    first = next((line for line in head if (found := fields(line)) and found[0] != b"c"), b"")
    if fields(first)[:2] == [b"p", b"max"] or path.endswith(".max"):
        return True
    is_table = has_table(TableFile(data, split_path(path)[0])) or any(
        mark in first for mark in MARKS
    )
    return in_doubt and not is_table


def subject_of(
    wanted: TableOptions, path: str, data: bytes, stages: Optional[Stages] = None
) -> LoadedProblem:
    """Return the problem of a table in these bytes, and note the stages. Raises a `TableFault`, and
    a `FileFault` if a table of places cannot be read."""
    plan = load_tables(wanted, path, data, stages)
    said = [term.kind for term in plan.terms]
    notes = complete(plan)
    net = net_of(plan)
    noun = spoken(plan.arcs.layout.title(NAME).text)
    told = (*plan.notes, *notes, *warnings(plan, net))
    found: dict[str, Any] = {
        KINDS[term.kind]: [term.place]
        for term in plan.terms
        if term.kind in KINDS and term.kind not in said
    }
    layout = plan.arcs.layout
    titles = {column: layout.title(column).text for column in layout.at if column not in STATES}
    texts = [title.text for title in layout.titles]
    if (
        layout.line
        and not plan.arcs.sheet.taken
        and not titles.keys() & PLACE_COLUMNS
        and all(texts.count(title) == 1 for title in titles.values())
    ):
        found.update(titles)
    return LoadedProblem(path, b"", noun, told, wanted.reading.raw_names, plan, found, net)
