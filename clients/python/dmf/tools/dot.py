"""Draw a maximum-flow problem, its solution and its cut as a text for
Graphviz.

    dmf solve --cut <problem.max | dmf-dot problem.max - | dot -Tsvg >picture.svg
    dmf session problem.max <commands.txt |
        dmf-dot problem.max --commands commands.txt - | dot -Tsvg >picture.svg

PROBLEM is a problem text. Each ANSWER is a text with the lines of a solution
(`s`, `f`), of a cut (`c cut`, `c side`), or of both; `-` is standard input.
Each arc is labelled with its flow and its capacity. Full arcs are bold, arcs
without flow are grey, and arcs of the cut are red. The nodes on the source's
side of the cut are filled, and the source and the sink have a double outline.
The numbers are those of the table that the problem was made from, and the
title shows their unit. What a place gives, takes or lets through is shown at
the place. A pipe that leads both ways is one line, whose arrow points to where
it flows, with its net flow.

An ANSWER may also be the output of a session. Give its commands with
--commands, or let them stand among the replies, as a terminal shows them. The
picture then shows the last solution and the last cut on the network as it is
at the end: closed arcs are dashed, and shut nodes are grey. If the network
changed after that solution or that cut, the picture says so.

If comments in the problem name nodes and arcs, the picture shows the names:

    c node 3 Reservoir
    c arc 5 Mill Street, 300 mm

PROBLEM may also be a table of arcs as `dmf-problem` reads it, with its
options: `dmf-dot pipes.csv --source Lake --sink Sea`.

If there are more than --most arcs, the picture shows the arcs nearest to the
cut, and gives a dashed outline to nodes whose other arcs are left out. If
there are more than --most nodes, it leaves out those without arcs.
"""

from __future__ import annotations

import argparse
import sys

from ..text.lexical import MOST_DRAWN
from .command import statuses
from .options import add_words, words_of

NAME = "dmf-dot"


def options() -> argparse.Namespace:
    parser = argparse.ArgumentParser(
        NAME,
        usage="%(prog)s [OPTION..] PROBLEM [ANSWER..]",
        description=__doc__,
        formatter_class=argparse.RawDescriptionHelpFormatter,
        epilog=statuses(),
    )
    parser.add_argument(
        "--commands",
        metavar="FILE",
        help="the commands of the session that wrote the ANSWER",
    )
    parser.add_argument(
        "--most",
        metavar="ARCS",
        type=int,
        default=MOST_DRAWN,
        help=f"draw at most this many arcs ({MOST_DRAWN})",
    )
    add_words(
        parser,
        "PROBLEM [ANSWER ..]",
        "a problem text or a table; then a solution, a cut, or both; or what a session wrote",
    )
    words = words_of(parser, sys.argv[1:], ends_are_words=False)
    if words.most < 1:
        parser.error("--most must be at least 1")
    if words.commands is not None and not words.others:
        parser.error("--commands needs an ANSWER")
    if [words.path, *words.others, words.commands].count("-") > 1:
        parser.error("standard input can be read only once")
    return words


def main() -> int:
    words = options()
    # A help needs nothing that reads and draws networks.
    from .drawn_answer import draw

    return draw(words)
