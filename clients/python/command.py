#!/usr/bin/env python3
"""The command `dmf` that pip installs. Like the launcher of an install, it runs a tool if the first
argument names one, and otherwise the executable inside the package, which replaces it. It imports
nothing of the package."""

import os
import signal
import sys
from importlib.util import find_spec
from typing import NoReturn

TOOLS = ("plan", "board", "sweep", "problem", "names", "dot")
HELP = ("help", "--help", "-h")
spec = find_spec("dmf")
package = os.path.dirname(spec and spec.origin or "")
program = os.path.join(package, "bin", "dmf")


def become(path: str, *words: str) -> NoReturn:
    """Replace this process with a command."""
    # Python ignores these signals, and so would the command.
    for number in signal.SIGPIPE, signal.SIGXFSZ:
        signal.signal(number, signal.SIG_DFL)
    try:
        os.execv(path, [path, *words])
    except OSError as error:
        print(f"dmf: {path} cannot be run: {error.strerror}", file=sys.stderr)
        sys.exit(70)


def print_text(name: str) -> NoReturn:
    """Print a text of the package, and end."""
    try:
        with open(os.path.join(package, "tools", name), "rb") as file:
            os.write(1, file.read())
    except OSError as error:
        print(f"dmf: cannot print {name}: {error.strerror}", file=sys.stderr)
        os._exit(4)
    os._exit(0)


def run_tool(word: str, *words: str) -> NoReturn:
    """Run the tool beside this file."""
    become(os.path.join(os.path.dirname(os.path.realpath(__file__)), f"dmf-{word}"), *words)


def main(words: list[str]) -> NoReturn:
    if words[:1] and words[0] in TOOLS:
        run_tool(*words)
    if words == ["help", "tables"]:
        print_text("tables.txt")
    if len(words) == 2 and words[0] == "help" and words[1] in TOOLS:
        run_tool(words[1], "--help")
    if len(words) == 1 and words[0] in HELP and os.path.isfile(program):
        # Imported here, since only a help can afford the time.
        import subprocess

        status = subprocess.call([program, *words])
        if status:
            sys.exit(status)
        print_text("tools.txt")
    become(program, *words)


main(sys.argv[1:])
