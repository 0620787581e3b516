"""Opens the desk of a project with the table that it came from, says what has changed in that
since, and keeps a new project."""

from __future__ import annotations

import argparse
import hashlib
import os
import secrets
from collections import Counter
from collections.abc import Callable, Iterator, Mapping
from dataclasses import dataclass, field, replace
from decimal import Decimal
from functools import cached_property
from typing import Optional

from ...errors import Error, FileFault, TableFault
from ...files import read_file
from ...quantity import decimals
from ...session.base import Program
from ...tables.loader import LoadedProblem, TableOptions, is_problem, split_path, subject_of
from ...tables.other_columns import Extra
from ...tables.table_file import ReadOptions
from ...tables.titles import COLUMNS
from ...text.lexical import TextFault, display
from ...text.problem_text import problem_in, read_problem
from ...text.spelling import cleaned, quoted_name
from ...text.table_comments import TableRoles
from ..scale import finer
from ..steps import DeskFault
from ..workspace import Desk
from .acts import arc_told
from .records import ENDING, OPTIONS, PLACE_OPTIONS, ArcName, File, KeptTable, Project, Scenario
from .scenarios import FIRST, Base, Differences, Scenarios
from .storage import ProjectFile, created, read_project
from .strict_json import ProjectFault

# The options that are decimal numbers.
NUMBERS = ("scale", "velocity", "tolerance", "shift")
# The most differing rows that are reported.
MOST_TOLD = 20


def sum_of(path: str) -> str:
    """Return the SHA-256 sum of a file. Raise a `FileFault` if it cannot be read."""
    return hashlib.sha256(_content_of(path)).hexdigest()


def _content_of(path: str) -> bytes:
    """Return the content of a file. Raise a `FileFault` if it cannot be read, or is a pipe or a
    device, which may have no end."""
    if os.path.exists(path) and not os.path.isfile(path):
        raise FileFault(f"{path} is not a file that could be read again")
    return read_file(path)


def kept_table(words: argparse.Namespace, subject: LoadedProblem, folder: str) -> KeptTable:
    """Return the table that the words of a tool name, which this problem was made of, for a project
    in a folder. Raise a `FileFault`."""
    path, sheet = split_path(words.path)
    table = KeptTable(
        _file(path, folder),
        sheet,
        unit=subject.measure.unit,
        noun=subject.noun,
        assumed=list(subject.notes),
    )
    given = {
        **vars(words),
        **getattr(words, "titles", {}),
        **{name: f"{number:f}" for name in NUMBERS if (number := getattr(words, name)) is not None},
    }
    found = {**subject.found, "decimal": subject.measure.sign}
    for name in OPTIONS:
        said = given.get(name) or found.get(name)
        if said:
            table.options[name] = said
    if any(given.get(option) is not None for option in ("sources", "sinks")):
        table.options.update({name: given[name] for name in ("source", "sink") if given[name]})
    for option in PLACE_OPTIONS:
        place_path: str | None = given.get(option)
        if place_path is not None:
            path, sheet = split_path(place_path)
            kept = _file(path, folder)
            table.places[option] = replace(
                kept, path=f"{kept.path}#{sheet}" if sheet else kept.path
            )
    return table


def _file(path: str, folder: str) -> File:
    if not os.path.isfile(path):
        raise FileFault(f"{path} is not a file that could be read again")
    return File(os.path.relpath(os.path.realpath(path), os.path.realpath(folder)), sum_of(path))


def with_sums(table: KeptTable, folder: str) -> KeptTable:
    """Return the table with the sums that its files have now. Raise a `FileFault` if one cannot be
    read."""

    def now(file: File) -> File:
        return replace(file, sum=sum_of(split_path(os.path.join(folder, file.path))[0]))

    return replace(
        table,
        file=now(table.file),
        places={option: now(file) for option, file in table.places.items()},
    )


def read_again(table: KeptTable, folder: str) -> LoadedProblem:
    """Return the problem of a table as its files are now. Raise a `FileFault` if one cannot be
    read, and a `TableFault` if one has a fault."""
    options = table.options
    titles = {column: options[column] for column in COLUMNS if column in options}
    places = {option: os.path.join(folder, file.path) for option, file in table.places.items()}
    scale, velocity, tolerance, shift = (
        Decimal(options[name]) if name in options else None for name in NUMBERS
    )
    wanted = TableOptions(
        ReadOptions(
            titles,
            options.get("decimal", ""),
            options.get("raw_names", False),
            options.get("missing", ""),
            tuple(options.get("ignore", ())),
            options.get("matrix", False),
            velocity,
            options.get("tanks", ""),
            tolerance or Decimal(0),
            options.get("needs", ""),
            shift,
            options.get("daily", ""),
        ),
        options.get("encoding"),
        scale,
        options.get("both_ways", False),
        tuple(options.get("source", ())),
        tuple(options.get("sink", ())),
        places,
    )
    path = os.path.join(folder, table.file.path)
    data = problem_in(_content_of(path))
    if is_problem(path, data):
        return LoadedProblem(path, data, raw_names=wanted.reading.raw_names)
    return subject_of(wanted, f"{path}#{table.sheet}" if table.sheet else path, data)


def differences(before: bytes, after: bytes) -> Differences:
    """Return how two problems differ, by the names of their places and arcs."""
    (was, unit_before), (now, unit_after) = map(_rows, (before, after))
    found = Differences()
    if unit_before != unit_after:
        found.told.append(
            f"numbers are in {unit_after or 'no unit'} now, and were in {unit_before or 'no unit'}"
        )
    for name in dict.fromkeys([*was, *now]):
        old, new = was.get(name, []), now.get(name, [])
        if old == new:
            continue
        if len(old) != len(new):
            found.unsure.add(name)
        gone, come = Counter(old) - Counter(new), Counter(new) - Counter(old)
        found.told += _told(name, [*gone.elements()], [*come.elements()])
    return found


def _told(name: ArcName, gone: list[str], come: list[str]) -> Iterator[str]:
    told = arc_told(name)
    for amount, other in zip(gone, come):
        yield f"{told}: {other}, and was {amount}"
    yield from (f"{told}: gone, was {amount}" for amount in gone[len(come) :])
    yield from (f"{told}: new, {amount}" for amount in come[len(gone) :])


def _rows(text: bytes) -> tuple[Mapping[ArcName, list[str]], str]:
    """Return the capacities of the arcs alike, with the source and the sink, by the name of an arc;
    and the unit."""
    problem = read_problem(text)
    folding, measure = TableRoles(problem.described), problem.described.measure
    labels = [
        cleaned(display(problem.node_names.get(node, str(node))))
        for node in range(1, problem.node_count + 1)
    ]

    def label(node: int) -> str:
        return labels[folding.place(node) - 1]

    found: dict[ArcName, list[str]] = {}
    for kind, node in ("source", problem.source), ("sink", problem.sink):
        if not folding.is_joint(node):
            found[f"the {kind}", label(node), ""] = [label(node)]
    for number, (tail, head, capacity) in enumerate(problem.arcs, 1):
        role = folding.role(tail, head)
        name = (
            (role.kind, label(role.node))
            if role
            else (label(tail), label(head), display(problem.arc_names.get(number, "")))
        )
        amount = (
            "as much as the arcs there carry"
            if role and role.is_unlimited
            else measure.text(capacity)
        )
        found.setdefault(name, []).append(amount)
    return found, measure.told_unit


def told_shortly(lines: list[str]) -> list[str]:
    """Return the first of some lines, and how many more there are."""
    more = len(lines) - MOST_TOLD
    return [*lines[:MOST_TOLD], f"and {more} more"] if more > 0 else lines


def is_project(path: str) -> bool:
    """Return True if a path names a project, by its end."""
    return path.endswith(ENDING)


def project_desk(path: str, table: str = "", program: Program = None) -> Desk:
    """Return the desk of the project at a path. `table` is where its table is now, if that has
    moved. Raise a `ProjectFault`, an OSError if the file cannot be read, and what `Desk` raises."""
    file = read_project(path)
    try:
        if not file.is_folded:
            _judge_network(file)
        _judge_amounts(file)
        file.fold()
        return Scenarios(file, _base(path, file, table), program).desk
    except BaseException:
        # Nothing was done that the journal has not, and the next call may find that it is a fault.
        file.leave()
        raise


def _judge_network(file: ProjectFile) -> None:
    """Raise a `ProjectFault` if the network of a project, which no session has read yet, has a
    fault."""
    try:
        read_problem(file.record.project.network.encode("utf-8", "surrogateescape"))
    except TextFault as fault:
        raise ProjectFault(f"{file.path}: network: {fault}") from None


def _judge_amounts(file: ProjectFile) -> None:
    """Raise a `ProjectFault` with its place for an amount that the network of a project cannot
    have."""
    found = list(_amounts(file.record.project))
    subject = LoadedProblem(
        file.path, file.record.project.network.encode("utf-8", "surrogateescape")
    )
    largest: dict[int, Decimal] = {}
    for amount, _ in found:
        largest[decimals(amount)] = max(amount, largest.get(decimals(amount), amount))
    for amount in largest.values():
        try:
            finer(subject, amount)
        except DeskFault as fault:
            place = next(place for other, place in found if other == amount)
            raise ProjectFault(f"{file.path}: {place}: {fault}") from None


def _amounts(project: Project) -> Iterator[tuple[Decimal, str]]:
    """Yield the amounts of a project's steps, each with its place."""
    for name, scenario in enumerate(project.scenarios):
        for at, step in enumerate(scenario.steps):
            for number, request in enumerate(step.requests):
                if len(request) > 2:
                    yield Decimal(request[2]), f"scenarios[{name}].steps[{at}].requests[{number}]"


@dataclass(frozen=True)
class _ProjectSubject(LoadedProblem):
    """The problem that a project has. The other columns of its table are read again when they are
    asked for."""

    read: Optional[Callable[[], LoadedProblem]] = field(default=None, repr=False, compare=False)

    @cached_property
    def extra(self) -> Extra:
        return self.read().extra if self.read else Extra()


def _base(path: str, file: ProjectFile, moved: str) -> Base:
    """Return the network of a project: the one that it has, or that of its table if that has
    changed since."""
    project, folder = file.record.project, os.path.dirname(file.path)
    kept = _ProjectSubject(
        path,
        project.network.encode("utf-8", "surrogateescape"),
        project.table.noun,
        tuple(project.table.assumed),
        bool(project.table.options.get("raw_names")),
    )
    told = [f"it is read-only, since {file.why_not}"] if file.why_not else []
    table = _moved(project.table, moved, folder) if moved else project.table
    as_kept = "the network is as it was kept"
    name = quoted_name(table.file.path)
    try:
        now = with_sums(table, folder)
        if now == project.table:
            return Base(replace(kept, read=lambda: read_again(now, folder)), told)
        subject = read_again(now, folder)
    except (FileFault, TableFault) as fault:
        lines = fault.lines() if isinstance(fault, TableFault) else [str(fault)]
        return Base(
            kept,
            [
                *told,
                f"the table {name} is not read, and {as_kept}: {lines[0]}; --table FILE names it "
                "where it is now",
                *lines[1:],
            ],
        )
    try:
        found = differences(kept.text, subject.text)
    except TextFault as fault:
        _judge_network(file)
        return Base(
            kept,
            [
                *told,
                f"the table {name} is not read, and {as_kept}: {fault}; --table FILE names it "
                "where it is now",
            ],
        )
    if file.why_not:
        changed = [f"the table {name} has changed since, and {as_kept}"] if found.told else []
        return Base(kept, [*told, *changed])
    if found.told:
        told += [
            f"the table {name} has changed since:",
            *(f"  {line}" for line in told_shortly(found.told)),
        ]
    now = replace(now, unit=subject.measure.unit, noun=subject.noun, assumed=list(subject.notes))
    return Base(replace(subject, path=path), told, now, found)


def _moved(table: KeptTable, path: str, folder: str) -> KeptTable:
    """Return the table at another path."""
    at, sheet = split_path(path)
    return replace(
        table,
        file=File(os.path.relpath(os.path.realpath(at), folder), ""),
        sheet=sheet or table.sheet,
    )


def beside(path: str) -> str:
    """Return the default path of a table's project: `pipes.dmf.json` beside `pipes.csv`."""
    return os.path.splitext(split_path(path)[0])[0] + ENDING


def keep_project(path: str, words: argparse.Namespace, desk: Desk, program: Program = None) -> Desk:
    """Return the desk of a new project, in a file that must not exist, with the table that the
    words of a tool name and the steps of a desk, which goes on. Raise a `DeskFault` if it cannot be
    made."""
    if not is_project(path):
        raise DeskFault(f"the name of a project ends with {ENDING}")
    kept = Scenarios.of(desk)
    if kept:
        raise DeskFault(f"the steps are already kept in {quoted_name(kept.file.path)}")
    subject = desk.network.subject
    base = Base(replace(subject, path=path))
    path = os.path.realpath(path)
    try:
        table = kept_table(words, subject, os.path.dirname(path))
        # The table may have changed since it was read.
        again = read_again(table, os.path.dirname(path))
        found = [] if again.text == subject.text else differences(subject.text, again.text).told
        if found:
            raise DeskFault(f"the project cannot be made: the table has changed: {found[0]}")
        project = Project(
            secrets.token_hex(8), table, base.network, scenarios=(Scenario(FIRST),), present=FIRST
        )
        file = created(path, project)
    except (FileFault, TableFault) as fault:
        raise DeskFault(f"the project cannot be made: {fault}") from None
    except FileExistsError as error:
        raise DeskFault(
            f"{quoted_name(base.subject.path)} cannot be made: {error.strerror}; open it, or "
            "choose another name"
        ) from None
    except OSError as error:
        raise DeskFault(
            f"{quoted_name(base.subject.path)} cannot be made: {error.strerror}"
        ) from None
    try:
        made = Scenarios(file, base, program)
        made.take_steps(desk.state.done, desk.turn)
    except BaseException as error:
        file.discard()
        if isinstance(error, Error):
            raise DeskFault(f"the project cannot be made: {error}") from None
        raise
    return made.desk
