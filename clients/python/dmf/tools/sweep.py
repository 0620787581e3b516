"""Try many cases on a problem, each on its solved network and undone afterwards, and write a table
of what each costs.

    dmf-sweep problem.max --close-each --of cut --top 20 >table.csv
    dmf-sweep pipes.csv Lake Sea --cases cases.txt >table.csv

With --close-each, each case closes one arc: one of the smallest minimum cut, or any arc. Both arcs
of a pipe that leads both ways are one case. With --cases, each line of FILE is a case: commands of
a session, separated by `;`, as in `close 5; add 1 4 7`. The table has a line for each case in
order: its number, its commands, the name of its first arc or node if comments of the problem give
one, the greatest value after it, the difference from the value before, and why it was refused, if
it was. With --top N it has only the N cases with the greatest losses, the greatest first, once all
are tried.

If --table FILE exists because an earlier run was interrupted, the sweep goes on after its last
whole line. In FILE each line has one more field, `problem`, which is the same for all lines of one
problem. A table of another problem is refused, and so is one without this field, which an older
version wrote. Two sweeps cannot write one FILE at the same time. On a terminal, a bar on standard
error shows the progress if the package tqdm is installed.

Values and differences are in the numbers of the problem's table, and their titles show the unit;
commands have the problem's whole numbers. A name that a spreadsheet would run as a formula gets an
apostrophe in front, unless --raw-names is given.
"""

from __future__ import annotations

import argparse
import io
import signal
import sys
from pathlib import Path
from typing import TYPE_CHECKING, Any

from ..errors import Refused
from ..files import cannot, write_file
from .command import Status, ToolFault, raise_interrupts, status_of, statuses, warn, write
from .options import add_words, words_of

if TYPE_CHECKING:
    from ..network import Network
    from .sweep_run import SweepRun

NAME = "dmf-sweep"


def arguments() -> argparse.Namespace:
    parser = argparse.ArgumentParser(
        NAME,
        usage="%(prog)s [OPTION..] {--close-each | --cases FILE} PROBLEM [SOURCE SINK]",
        description="Try many cases on a problem, or on a table of arcs as dmf-problem reads it, "
        "and write a table of what each costs.",
        epilog=statuses(),
        allow_abbrev=False,
    )
    wanted = parser.add_mutually_exclusive_group(required=True)
    wanted.add_argument("--close-each", action="store_true", help="each case closes one arc")
    wanted.add_argument(
        "--cases",
        metavar="FILE",
        help="each line is a case: commands separated by ;",
    )
    parser.add_argument(
        "--of",
        choices=["cut", "all"],
        default="all",
        help="which arcs are closed: those of the cut, or all (default)",
    )
    parser.add_argument(
        "--anew",
        action="store_true",
        help="solve each case from scratch: faster if paths are long; the table is the same",
    )
    parser.add_argument(
        "--top",
        metavar="N",
        type=whole,
        help="write only the N cases with the greatest losses",
    )
    parser.add_argument(
        "--jobs",
        metavar="N",
        type=whole,
        help="how many programs run at once; by default one for each processor",
    )
    parser.add_argument(
        "--table",
        metavar="FILE",
        help="write to FILE, and go on where it ends; by default standard output",
    )
    parser.add_argument(
        "--json",
        action="store_true",
        help="write JSON objects, one a line, instead of a table; not with --table",
    )
    parser.add_argument(
        "--plot",
        metavar="FILE",
        help="draw the losses in order; needs the package matplotlib",
    )
    add_words(parser, "PROBLEM [SOURCE SINK]", "a problem text, or a table of arcs")
    words = words_of(parser, sys.argv[1:])
    if words.json and words.table is not None:
        parser.error("--json and --table cannot be used together")
    return words


def whole(text: str) -> int:
    if not text.isdecimal() or not 0 < int(text) < 10**9:
        raise argparse.ArgumentTypeError(f"{text!r} is not a whole number of at least 1")
    return int(text)


def plot(sweep: SweepRun, rows: list[list[str]], path: str) -> None:
    """Draw the losses of rows, the greatest first."""
    try:
        import matplotlib

        matplotlib.use("Agg")
        from matplotlib import pyplot
    except ImportError:
        raise ToolFault(
            "a plot needs the package matplotlib, which is not installed", Status.LOST
        ) from None
    figure, axes = pyplot.subplots()
    axes.step(
        range(1, len(rows) + 1),
        [-float(sweep.difference(row)) for row in rows],
        where="mid",
    )
    axes.set_xlabel("cases, the greatest loss first")
    axes.set_ylabel(sweep.measure.title("loss"))
    drawn = io.BytesIO()
    try:
        figure.savefig(drawn, format=Path(path).suffix[1:] or "png")
        write_file(path, drawn.getvalue())
    except OSError as error:
        raise cannot("write", path, error) from None
    except ValueError as error:
        raise ToolFault(f"cannot write {path}: {error}", Status.LOST) from None


def carry_out(words: argparse.Namespace, network: Network[Any], text: bytes) -> int:
    from ..session.fresh import FreshSession
    from ..session.runners import program_of
    from .sweep_run import JsonSweep, SweepRun
    from .sweep_table import ResultFile

    if words.anew:
        network._session = FreshSession(network._session, program_of(None))
    network.solve()
    sweep = (JsonSweep if words.json else SweepRun)(network, text, words)
    rows: list[list[str]] = []
    if words.table is not None:
        table = ResultFile(words.table, sweep, words.path)
        table.write_head()
        for row in sweep.rows(len(table.rows)):
            table.write(row)
        rows = table.rows
    elif words.top is not None:
        rows += sweep.rows(0)
    else:
        write(sweep.line(sweep.head))
        for row in sweep.rows(0):
            rows.append(row)
            write(sweep.line(row))
    if words.top is not None:
        write("".join(map(sweep.line, [sweep.head, *sweep.losses(rows)[: words.top]])))
    if words.plot is not None:
        plot(sweep, sweep.losses(rows), words.plot)
    return Status.DONE


def network_of(words: argparse.Namespace) -> tuple[Network[Any], bytes]:
    """Return the network that the arguments name, and the text of its problem. Raises a
    `ToolFault`."""
    # A help needs no network.
    from ..tables.loader import read_subject
    from ..tables.problem_networks import whole_network

    subject = read_subject(words, in_doubt=True)
    for note in subject.notes:
        warn(NAME, note)
    try:
        return whole_network(subject.text), subject.text
    except Refused as refused:
        raise ToolFault(f"{words.path}: {refused}", status_of(refused)) from None


def main() -> int:
    words = arguments()
    # Ctrl-C raises an exception, so that each program is ended.
    raise_interrupts()
    # A program that has ended is reported by its status; a write to it must not end this process.
    signal.signal(signal.SIGPIPE, signal.SIG_IGN)
    try:
        network, text = network_of(words)
        with network:
            return carry_out(words, network, text)
    except KeyboardInterrupt:
        return Status.INTERRUPTED
