"""Runs the program instead of Python, as in `python -m dmf solve --cut <problem.max`, or a tool,
as in `python -m dmf plan pipes.csv`; or prints a problem's value and its limit, with its names:
`python -m dmf problem.max`."""

from __future__ import annotations

import os
import signal
import sys
from importlib import import_module
from pathlib import Path
from typing import Any, NoReturn

from .errors import NoProgram, Refused
from .files import cannot
from .session import executable
from .tools import TOOLS
from .tools.command import ToolFault, run, status_of, write

# The status of `./dmf` if there is no program.
MISSING = 70


def run_tool(word: str, words: list[str]) -> NoReturn:
    """Run a tool in this process."""
    sys.argv = [f"dmf-{word}", *words]
    run(sys.argv[0], import_module(f".tools.{word}", __package__).main)


def print_text(name: str) -> int:
    """Print a text file of the tools."""
    write((Path(__file__).parent / "tools" / name).read_text())
    return 0


def print_help(path: str, word: str) -> int:
    """Print the help of the program at `path`, and then the list of the tools."""
    import subprocess

    try:
        status = subprocess.call([path, word])
    except OSError as error:
        executable.refuse_unrun(path, error)
        raise
    return status or print_text("tools.txt")


def become(path: str) -> NoReturn:
    """Replace this process by the program. Raises `NoProgram`."""
    # Python ignores this signal, and the program would inherit that. `run` resets the others.
    signal.signal(signal.SIGXFSZ, signal.SIG_DFL)
    try:
        os.execv(path, [path, *sys.argv[1:]])
    except OSError as error:
        executable.refuse_unrun(path, error)
        raise


def told(network: Any) -> list[str]:
    """Return lines with the network's value, and each part of its smallest minimum cut with what it
    carries, in the numbers of its table if it has one."""
    from .quantity import plain_text
    from .text.table_comments import DOES, listed

    flow, cut, measure = network.solve(), network.cut(), network._measure
    source, sink = (
        listed(map(str, ends)) if isinstance(ends, tuple) else ends
        for ends in (network.source, network.sink)
    )
    unit = f" {measure.told_unit}" if measure and measure.told_unit else ""
    lines = [f"{plain_text(flow.value)}{unit} can be sent from {source} to {sink}"]
    for arc in cut.arcs:
        name = "" if arc.given_key is None else f"  {arc.given_key}"
        lines.append(f"limit: {arc.tail} -> {arc.head}  {plain_text(flow[arc])}{name}")
    return lines + [
        f"limit: what {term.place} {DOES[term.kind]}  {plain_text(term.quantity)}"
        for term in getattr(cut, "terms", ())
    ]


def tell(path: str) -> int:
    """Print a problem's value and its limit."""
    from .tables.problem_networks import read
    from .text.lexical import display

    # A program that refuses the problem may have ended before it is asked.
    by_default = signal.signal(signal.SIGPIPE, signal.SIG_IGN)
    try:
        with read(path) as network:
            lines = told(network)
    except NoProgram:
        raise
    except OSError as error:
        raise cannot("read", path, error) from None
    except Refused as refused:
        line = f"line {refused.line}: " if refused.line else ""
        raise ToolFault(f"{path}: {line}{refused.text}", status_of(refused)) from None
    signal.signal(signal.SIGPIPE, by_default)
    write("".join(f"{display(line)}\n" for line in lines))
    return 0


def main() -> int:
    words = sys.argv[1:]
    try:
        if len(words) == 1 and os.path.isfile(words[0]) and not words[0].startswith("-"):
            return tell(words[0])
        if words[:1] and words[0] in TOOLS:
            run_tool(words[0], words[1:])
        if words[:1] == ["help"] and len(words) == 2 and words[1] in TOOLS:
            run_tool(words[1], ["--help"])
        if words == ["help", "tables"]:
            return print_text("tables.txt")
        if len(words) == 1 and words[0] in ("help", "--help", "-h"):
            return print_help(executable.program(), words[0])
        become(executable.program())
    except NoProgram as fault:
        raise ToolFault(str(fault), MISSING) from None


if __name__ == "__main__":
    run("dmf", main)
