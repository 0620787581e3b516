"""Print answers of dmf with the names of nodes and arcs.

    dmf solve --cut <PROBLEM | dmf-names PROBLEM
    dmf session PROBLEM <COMMANDS | dmf-names PROBLEM --commands COMMANDS
    dmf-names PROBLEM <TRANSCRIPT

The names are read from comments in the file PROBLEM: 'c node 3 Reservoir', 'c
arc 5 Mill Lane'. A node without a name is shown by its number, and an arc
without a name by its ends. In front of each arc stands its number, which
commands use:

    value 165
      10 Mill Lane, Mill -> Market: 45 of 45

The numbers are those of the table that the problem was made from, with its
unit, as far as comments give them. A place with a limit is shown as one place,
and an arc that the table does not have by what it means: 'what Mill lets
through', 'what Mill gives at most'. A pipe that leads both ways is one line, with
the numbers of both its arcs, its net flow and where that goes:

     3,4 Main, Mill <-> Town: 40 of 50 to Town

PROBLEM may also be the table itself, with the options with which dmf-problem
made the problem from it:

    dmf-problem Lake Sea <pipes.csv | dmf solve --cut |
        dmf-names pipes.csv Lake Sea

The answer is read from standard input: a solution and a cut, or the replies of
a session. COMMANDS has the session's commands, and may still be written to:
'tee COMMANDS | dmf session PROBLEM | dmf-names PROBLEM --commands COMMANDS'.
In a transcript, the commands stand among the replies, as a terminal shows
them. If a session has changed the network and dmf-names does not have the
commands, it prints flows without capacities, and cuts without their arcs. It
adds names to a printed problem. It refuses an answer that does not match the
problem or the commands, and prints all other lines unchanged.
"""

from __future__ import annotations

import argparse
import sys

from .command import statuses
from .options import add_words, words_of

NAME = "dmf-names"


def options() -> argparse.Namespace:
    parser = argparse.ArgumentParser(
        NAME,
        usage="%(prog)s [OPTION..] PROBLEM [SOURCE SINK] <ANSWER",
        description=__doc__,
        formatter_class=argparse.RawDescriptionHelpFormatter,
        epilog=statuses(),
    )
    parser.add_argument(
        "--commands",
        metavar="FILE",
        help="the commands that the session was given, read in step with its replies",
    )
    parser.add_argument(
        "--csv",
        action="store_true",
        help="write the arcs of the last solution as a table for a spreadsheet",
    )
    parser.add_argument(
        "--json",
        action="store_true",
        help="write the answer as JSON objects, one a line",
    )
    add_words(
        parser,
        "PROBLEM [SOURCE SINK]",
        "the problem that was solved, or the table that it was made from",
    )
    words = words_of(parser, sys.argv[1:])
    if words.csv and words.json:
        parser.error("--csv and --json cannot be used together")
    if words.path == "-":
        parser.error("PROBLEM must be a file, since the answer is read from standard input")
    return words


def main() -> int:
    words = options()
    # A help needs nothing that reads tables and answers.
    from ..tables.loader import read_subject
    from .named_answer import show

    return show(read_subject(words, in_doubt=True), words)
