"""Runs the built program on its arguments: on those that it does not take, of which it tells on
standard error what is wrong with them and how it is used; on those that ask for help or for the
version, which are answered on standard output; and on the options and the path of each command in
every order, where the second implementation says what is to come of them."""

from __future__ import annotations

import os
import re
from collections.abc import Iterator
from itertools import permutations

import built
from built import PROBLEM, Case
from oracle.program import RELEASE, Outcome
from worked_forms import CROSSED, CROSSED_FLOW, Worked, text

# How the program and its commands are used.
USAGE = """Usage: dmf [solve [--any] [--brief] [--cut] [--progress]] <FILE
       dmf session [--brief] [--cut] [--history N] [--progress] PROBLEM
       dmf check PROBLEM <SOLUTION
       dmf vital [--nodes | --pairs | --second] [--progress] [--worst N] <FILE
"""
SOLVE = "Usage: dmf solve [--any] [--brief] [--cut] [--progress] <FILE\n"
SESSION = "Usage: dmf session [--brief] [--cut] [--history N] [--progress] PROBLEM\n"
CHECK = "Usage: dmf check PROBLEM <SOLUTION\n"
VITAL = "Usage: dmf vital [--nodes | --pairs | --second] [--progress] [--worst N] <FILE\n"
# The tools around the program, by their files.
TOOLS = [
    name
    for name in os.listdir(os.path.join(os.path.dirname(__file__), "..", "tools"))
    if name.startswith("dmf-")
]
# What the help has, from its beginning to its end.
HELP = (
    f"Find how much a network can carry and where its limit is, and try out changes\n\n{USAGE}\n"
    "Commands:\n  solve ",
    "\n  session ",
    "\n  check ",
    "\n  vital ",
    "\n  help ",
    "\nOptions:\n  -h, --help     Print help\n  -V, --version  Print version\n",
    "\n  $ dmf solve --cut <network.max ",
    "\n  $ printf 'cap 5 1\\nsolve\\n' | dmf session --brief network.max\n",
    "\n  $ dmf solve <network.max | dmf check network.max\n",
    "\n  $ dmf vital <network.max\n  c value 5\n  v 1 2\n",
    "\nExit status:\n  0  success\n  1 ",
    "\n  2  invalid arguments\n  3 ",
    "\n  4 ",
    "\n  5 ",
    "\nTools around it: ",
    "\n\nFILE and PROBLEM are texts in the DIMACS format",
    "\neach command and tool says more. man dmf has the formats.\n",
)
# Words that are refused, each with a part of the text that tells it. The usage is told after it.
REFUSED = [
    ("--cut", "unexpected argument '--cut' found"),
    ("--progress", "unexpected argument '--progress' found"),
    ("--brief", "unexpected argument '--brief' found"),
    ("--any", "unexpected argument '--any' found"),
    ("session", "<PROBLEM>"),
    ("session --cut", "<PROBLEM>"),
    ("check", "<PROBLEM>"),
    ("solve P", "unexpected argument 'P' found"),
    ("session P Q", "unexpected argument 'Q' found"),
    ("check --cut P", "unexpected argument '--cut' found"),
    ("check --progress P", "unexpected argument '--progress' found"),
    ("check --brief P", "unexpected argument '--brief' found"),
    ("check --any P", "unexpected argument '--any' found"),
    ("session --any P", "unexpected argument '--any' found"),
    ("solve --any P", "unexpected argument 'P' found"),
    ("solve --brief --any --brief", "cannot be used multiple times"),
    ("solve --any --any", "cannot be used multiple times"),
    ("session --brief", "<PROBLEM>"),
    ("session --brief --brief P", "cannot be used multiple times"),
    ("session --brief --cut P --brief", "cannot be used multiple times"),
    ("check P Q", "unexpected argument 'Q' found"),
    ("wash", "unrecognized subcommand 'wash'"),
    ("Solve", "unrecognized subcommand 'Solve'"),
    ("session --Cut P", "unexpected argument '--Cut' found"),
    ("solve --cut --cut", "cannot be used multiple times"),
    ("solve --cut=yes", "unexpected value 'yes' for '--cut' found"),
    ("solve --version", "unexpected argument '--version' found"),
    ("solve net.max --cut", "unexpected argument 'net.max' found"),
    ("session --cut=yes P", "unexpected value 'yes' for '--cut' found"),
    ("session --version", "unexpected argument '--version' found"),
    ("session --cuts P", "unexpected argument '--cuts' found"),
    ("-x", "unexpected argument '-x' found"),
    ("--history 1", "unexpected argument '--history' found"),
    ("help wash", "unrecognized subcommand 'wash'"),
    ("session --history 1 --history 1 P", "cannot be used multiple times"),
    ("session --history -1 P", "unexpected argument '-1' found"),
    ("check --history 1 P", "unexpected argument '--history' found"),
    ("solve --history 1", "unexpected argument '--history' found"),
    ("vital P", "unexpected argument 'P' found"),
    ("vital --progress P", "unexpected argument 'P' found"),
    ("vital --cut", "unexpected argument '--cut' found"),
    ("vital --brief", "unexpected argument '--brief' found"),
    ("vital --any", "unexpected argument '--any' found"),
    ("vital --history 1", "unexpected argument '--history' found"),
    ("vital --arcs", "unexpected argument '--arcs' found"),
    ("vital --nodes P", "unexpected argument 'P' found"),
    ("vital --nodes --cut", "unexpected argument '--cut' found"),
    ("vital --nodes=2", "unexpected value '2' for '--nodes' found"),
    ("vital --nodes --nodes", "cannot be used multiple times"),
    ("vital --pairs=2", "unexpected value '2' for '--pairs' found"),
    ("vital --pairs --pairs", "cannot be used multiple times"),
    ("vital --pairs", "the following required arguments were not provided:\n  --worst <N>\n"),
    ("vital --pairs --progress", "were not provided:\n  --worst <N>\n"),
    ("vital --pairs --nodes", "the argument '--nodes' cannot be used with '--pairs'\n"),
    ("vital --worst 1 --pairs --nodes", "the argument '--nodes' cannot be used with '--pairs'\n"),
    ("vital --pairs --worst 1 P", "unexpected argument 'P' found"),
    ("vital --second=2", "unexpected value '2' for '--second' found"),
    ("vital --second --second", "cannot be used multiple times"),
    ("vital --second --nodes", "the argument '--nodes' cannot be used with '--second'\n"),
    ("vital --pairs --second", "the argument '--pairs' cannot be used with '--second'\n"),
    ("vital --second --worst 2", "the argument '--second' cannot be used with '--worst <N>'\n"),
    ("vital --second P", "unexpected argument 'P' found"),
    ("vital --progress --progress", "cannot be used multiple times"),
    ("vital --worst 1 --worst 1", "cannot be used multiple times"),
    ("vital --worst -1", "unexpected argument '-1' found"),
    ("vital --worst 1 P", "unexpected argument 'P' found"),
    ("--worst 1", "unexpected argument '--worst' found"),
    ("solve --worst 1", "unexpected argument '--worst' found"),
    ("session --worst 1 P", "unexpected argument '--worst' found"),
    ("check --worst 1 P", "unexpected argument '--worst' found"),
    ("--nodes", "unexpected argument '--nodes' found"),
    ("solve --nodes", "unexpected argument '--nodes' found"),
    ("session --nodes P", "unexpected argument '--nodes' found"),
    ("check --nodes P", "unexpected argument '--nodes' found"),
    ("--pairs", "unexpected argument '--pairs' found"),
    ("solve --pairs", "unexpected argument '--pairs' found"),
    ("session --pairs P", "unexpected argument '--pairs' found"),
    ("check --pairs P", "unexpected argument '--pairs' found"),
    ("--second", "unexpected argument '--second' found"),
    ("solve --second", "unexpected argument '--second' found"),
    ("session --second P", "unexpected argument '--second' found"),
    ("check --second P", "unexpected argument '--second' found"),
    ("Vital", "unrecognized subcommand 'Vital'"),
]
# Words with a bound that is refused, each with a part of the text that tells it.
BOUNDS = [
    ("session --history 1000001 P", "invalid value '1000001' for '--history <N>'"),
    ("session --history ++1 P", "invalid value '++1' for '--history <N>'"),
    ("session --history x P", "invalid value 'x' for '--history <N>'"),
    ("vital --worst 10001", "invalid value '10001' for '--worst <N>'"),
    ("vital --worst=x", "invalid value 'x' for '--worst <N>'"),
    ("vital --worst", "a value is required for '--worst <N>' but none was supplied"),
    (
        "session --history 1 --history",
        "a value is required for '--history <N>' but none was supplied",
    ),
]
# Words that are refused, each with how they could be right.
FORMS = [
    ("--cut", USAGE),
    ("net.max", USAGE),
    ("solve net.max", SOLVE),
    ("session", SESSION),
    ("check", CHECK),
    ("vital net.max", VITAL),
    ("vital --pairs", VITAL),
    ("vital --second --nodes", VITAL),
]
# Words, each with parts of the help that they ask for.
HELPS: list[tuple[str, tuple[str, ...]]] = [
    ("--help", HELP),
    ("-h", HELP),
    ("help", HELP),
    ("--help wash", HELP),
    (
        "solve --help",
        (
            SOLVE,
            "--cut       Write the smallest minimum cut after the solution\n",
            "--progress  Tell on standard error how far it is\n",
        ),
    ),
    (
        "solve --help",
        (
            "--any       Write any flow of the greatest value, found sooner\n",
            "--brief     Write the value in place of the solution\n",
        ),
    ),
    (
        "solve --help",
        (
            "\n  $ dmf solve --cut <network.max\n  s 5\n",
            "\nWith --brief the line c solve value VALUE stands for the solution.",
        ),
    ),
    ("session --help", (SESSION, "<PROBLEM>  The file with the problem\n")),
    ("session --help", ("--brief        Answer a solve by its value in place of the solution\n",)),
    ("session --help", ("--cut          Write the smallest minimum cut after each solution\n",)),
    ("session --help", ("--history <N>  Keep at most N changes for undo [default: 1000000]\n",)),
    ("session --help", ("--progress     Tell on standard error how far it is\n",)),
    (
        "session --help",
        (
            "With --brief the reply to solve is\nc solve value VALUE.\n",
            "closed\nones keep their numbers.\n",
        ),
    ),
    ("session --help", ("at a terminal by Ctrl-D.\n", "| dmf session network.max\n")),
    ("session P --help", (SESSION,)),
    ("session --cut -h", (SESSION,)),
    ("check --help", (CHECK, "| dmf check network.max\n  c greatest 5\n")),
    ("check P -h", (CHECK,)),
    ("help solve", (SOLVE,)),
    ("help session", (SESSION,)),
    ("help check", (CHECK,)),
    (
        "vital --help",
        (
            VITAL,
            "Leave out each node in turn, rather than each arc\n",
            "Leave out pairs of arcs; needs --worst\n",
            "Tell on standard error how far it is\n",
            "Also print the greatest value with a second arc beside each\n",
            "--worst <N>",
            "\n  $ dmf vital <network.max\n  c value 5\n",
            "\n  $ dmf vital --nodes <network.max\n  c value 5\n  v 2 2\n  v 3 2\n",
            "\n  $ dmf vital --worst 2 <network.max\n  c value 5\n  v 1 2\n  v 5 2\n",
            "\n  $ dmf vital --pairs --worst 2 <network.max\n  c value 5\n  v 1 2 0\n  v 1 5 0\n",
            "\n  $ dmf vital --second <network.max\n  c value 5\n  v 1 2 5\n  v 2 3 5\n",
        ),
    ),
    ("vital --progress -h", (VITAL,)),
    ("vital --pairs --nodes -h", (VITAL,)),
    ("help vital", (VITAL,)),
]
VERSIONS = [(word, f"dmf {RELEASE}\n") for word in ("--version", "-V")]


# What may stand after a command; the words of one part stand together.
PARTS = ("--brief",), ("--cut",), ("--history", "1"), ("--progress",), (PROBLEM.decode(),)
SOLVE_PARTS = ("--any",), *PARTS
VITAL_PARTS = ("--nodes",), ("--pairs",), ("--second",), ("--worst", "2"), *PARTS
# What else may stand after `session`: other ways to write a bound, and paths that look like other
# words. Of these paths only one has a file.
SESSION_WORDS = (
    "--history=+1 problem.max",
    "--history +1 problem.max",
    "--history 01 problem.max",
    "--history 0 problem.max",
    "-- problem.max",
    "-- --cut",
    "-",
    "solve",
)
# What is on standard input after each command, from which it shows what was asked for.
INPUTS = {
    "solve": text(CROSSED),
    "session": b"solve\ncap 5 1\nundo\nundo\n",
    "check": text(CROSSED_FLOW),
    "vital": text(CROSSED),
}


def orders(command: str) -> Iterator[Case]:
    """The parts after a command in every order: all of them after `session`, four after `solve` and
    three after the others, which take fewer. And each part twice, with the path after it or
    between; and what else may stand after `session`.
    """
    parts = {"solve": SOLVE_PARTS, "vital": VITAL_PARTS}.get(command, PARTS)
    most = {"session": len(PARTS), "solve": 4}.get(command, 3)
    chosen = [order for count in range(most + 1) for order in permutations(parts, count)]
    chosen += [
        order for part in parts for order in ((part, part, PARTS[-1]), (part, PARTS[-1], part))
    ]
    lines = [" ".join([command, *(word for part in order for word in part)]) for order in chosen]
    lines += [f"session {words}" for words in SESSION_WORDS if command == "session"]
    for line in lines:
        yield Case(line, tuple(line.encode().split()), text(CROSSED), INPUTS[command])


def wanted_of(case: Case) -> Outcome:
    """How the second implementation ends. Where progress is asked for, lines of it are told, which
    it does not know."""
    wanted = built.wanted(case)
    is_told = wanted.told == b"" and b"--progress" in case.words
    return wanted._replace(told=re.compile(rb"(dmf: .*\n)+")) if is_told else wanted


def having(*parts: str) -> re.Pattern[bytes]:
    """The texts that have these parts, each after the one before."""
    return re.compile(
        b".*".join([b"", *(re.escape(part.encode()) for part in parts), b""]), re.DOTALL
    )


def row(words: str, outcome: Outcome) -> Worked:
    """Words between which a space stands, and how the program is to end on them."""
    return Worked(Case(f"the words '{words}'", tuple(words.encode().split()), b"", b""), outcome)


def judge(worked: Worked) -> str | None:
    """Says what is wrong with the run on a row's words."""
    case, wanted = worked
    run = built.run(case)
    return (
        None
        if wanted.allows(*run)
        else f"{case.name}: {wanted} is wanted, and the program ends so: {run}"
    )


ROWS = [
    *(row(words, Outcome(2, b"", having(part, "Usage: dmf"))) for words, part in REFUSED),
    *(row(words, Outcome(2, b"", having(part))) for words, part in BOUNDS + FORMS),
    *(row(words, Outcome(0, having(*parts))) for words, parts in HELPS),
    *(row("--help", Outcome(0, having("\nTools around it: ", tool))) for tool in TOOLS),
    *(row(words, Outcome(0, text.encode())) for words, text in VERSIONS),
]
