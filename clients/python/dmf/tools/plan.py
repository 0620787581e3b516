"""Plan changes to a network by its names: close, widen or add an arc, shut a
place, solve, and step back and forth.

    dmf-plan pipes.csv
    dmf-plan pipes.csv Reservoir Harbour
    dmf-plan problem.max <COMMANDS
    dmf-plan pipes.dmf.json

FILE is a table of arcs as `dmf-problem` reads it, a problem's file, or a
project, which keeps what was done. If a table is given without a source, the
source is the one place that no arc enters; without a sink, the sink is the one
place that no arc leaves. At a terminal, the tab key completes names, and
`help` lists the commands:

    value 165 litres per second, the greatest
    165, greatest> close "Mill Lane"

Otherwise each line of standard input is a command. Blank lines and lines that
begin with # are skipped.
"""

from __future__ import annotations

import argparse
import os
import signal
import sys
from typing import TYPE_CHECKING

from ..files import standard_input
from .command import Status, statuses, warn, write
from .desk_options import add_project_words, close_desk, open_desk
from .options import add_words, words_of

if TYPE_CHECKING:
    from ..desk.workspace import Desk

NAME = "dmf-plan"


def options() -> argparse.Namespace:
    parser = argparse.ArgumentParser(
        NAME,
        usage="%(prog)s [OPTION..] FILE [SOURCE SINK]",
        description=__doc__,
        formatter_class=argparse.RawDescriptionHelpFormatter,
        epilog=statuses(may_refuse=True),
    )
    add_words(parser)
    add_project_words(parser)
    parser.add_argument(
        "--json",
        action="store_true",
        help="answer each command of a script with JSON objects, one a line",
    )
    return words_of(parser, sys.argv[1:])


def opened(words: argparse.Namespace) -> Desk:
    """Return the desk for the file and options in the arguments."""
    desk = open_desk(words, with_solve=False)
    for note in desk.take_news():
        warn(NAME, note)
    return desk


def main() -> int:
    words = options()
    # A help needs no desk.
    from ..desk.plan.json_output import JsonOutput
    from ..desk.plan.output import TextOutput
    from ..desk.plan.shell import Shell
    from ..desk.project.opener import beside, is_project, keep_project

    is_typed = sys.stdin is not None and sys.stdin.isatty() and not words.json
    # If a session has ended or a page has gone, a write to it fails instead of ending the tool.
    signal.signal(signal.SIGPIPE, signal.SIG_IGN)
    desk = opened(words)
    offer = (
        beside(words.path)
        if os.path.isfile(words.path) and not is_project(words.path) and not words.keep
        else ""
    )
    plan = Shell(
        desk,
        output=JsonOutput if words.json else TextOutput,
        is_typed=is_typed,
        write=write,
        keep=lambda path, made: keep_project(path, words, made),
        offer=offer,
    )
    try:
        if is_typed:
            # At a terminal, Ctrl-C interrupts a command, and not the session.
            signal.signal(signal.SIGINT, signal.default_int_handler)
            plan.run_typed()
            return Status.DONE
        plan.run_script(line.decode(errors="replace") for line in standard_input())
    finally:
        close_desk(NAME, plan.desk)
    return Status.REFUSED if plan.refused else Status.DONE
