"""Make a problem from a table of arcs: a CSV file, or a sheet of a workbook.

    dmf-problem SOURCE SINK <TABLE >PROBLEM

Each row is an arc: its tail, its head, its capacity and, if there is one, its
name. Columns with the usual titles in English, German, French or Spanish may
stand in any order; otherwise they must stand in this one. Nodes are numbered
in the order in which they first appear in the table, and arcs in the order of
their rows. The names are kept in comments of the problem, where dmf-names
finds them. If a table has faults, dmf-problem lists them with their lines on
standard error, and writes no problem. If something only looks like a mistake,
it prints a warning.

A table of arcs with a table of the most that may pass through each place; and
two sheets of a workbook:

    dmf-problem --table pipes.csv --node-limits pumps.csv Lake Town >town.max
    dmf-problem --table net.xlsx#Rohre --places net.xlsx#Orte Lake Town

Two mills, the second of which gives at most 20, and the towns in towns.csv,
which lists the most that each takes:

    dmf-problem --source Mill --source "Mill 2=20" --sinks towns.csv <roads.csv
"""

from __future__ import annotations

import argparse
import sys

from ..files import cannot
from ..tables.titles import DEMAND, SUPPLY
from .command import Status, statuses, warn, write
from .options import add_options, parsed

NAME = "dmf-problem"


def parser() -> argparse.ArgumentParser:
    """Return the parser of the arguments."""
    made = argparse.ArgumentParser(
        NAME,
        usage="%(prog)s [OPTION..] SOURCE SINK <TABLE >PROBLEM",
        description=__doc__,
        formatter_class=argparse.RawDescriptionHelpFormatter,
        epilog=statuses(),
    )
    made.add_argument(
        "places",
        metavar="SOURCE SINK",
        nargs="*",
        help="the places where flow comes from and goes to",
    )
    made.add_argument(
        "--table", metavar="FILE", help="the table of arcs; by default standard input"
    )
    add_options(made)
    return made


def main() -> int:
    reader = parser()
    words = parsed(reader, sys.argv[1:])
    # A help needs nothing that reads tables.
    from ..tables.built_problem import problem_text
    from ..tables.loader import data_of, load_tables, wanted_of
    from ..tables.other_columns import extra_of
    from ..tables.problem_builder import net_of
    from ..tables.setting_question import answered
    from ..tables.warnings import warnings

    try:
        data = data_of(words.table)
    except OSError as error:
        raise cannot("read", "standard input", error) from None
    words.path = words.table
    plan = answered(words, lambda: load_tables(wanted_of(words), words.table, data))
    if not plan.of_kind(SUPPLY) or not plan.of_kind(DEMAND):
        reader.error("name a source and a sink")
    net = net_of(plan)
    for note in plan.notes:
        warn(NAME, note)
    for warning in warnings(plan, net):
        warn(NAME, f"warning: {warning}")
    write(problem_text(net, extra_of(plan.arcs, 1 + plan.both_ways)))
    return Status.DONE
