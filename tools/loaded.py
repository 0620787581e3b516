#!/usr/bin/env python3
"""Count in the log of ./prove what that run did not do itself, but loaded from earlier work.

    python3 tools/loaded.py LOG

A check says how many modules of each library it loaded and, if it began with stored work, how many
of its own. Modules of this repository may be loaded only from a library that the same run has
proved. `rt` also says which crates and edits it did not repeat, and whose work a check began with.
After the list, one line says how many modules were loaded from earlier work. The status is 0 if
there were none and nothing else was taken from an earlier run.
"""

from __future__ import annotations

import re
import sys
from collections.abc import Iterator
from pathlib import Path

CRATES = Path(__file__).resolve().parents[1] / "crates"
PROVED = re.compile(r"^rt: (\w+) proved$")
LOADED = re.compile(r"^(crate|library|statements) (\w+): modules loaded=(\d+) checked=(\d+)")
# Other lines which say that this run relied on something that it did not do itself.
KEPT = re.compile(
    r"^rt: \w+ is kept:|were tried by an earlier run|: begins with what a check kept in "
    r"|the others are kept from earlier runs"
)


def from_before(lines: list[str], own: set[str]) -> Iterator[tuple[int, str]]:
    """Yield what was loaded from earlier work: how many modules, and the line that says so. The
    argument has the names of the repository's crates."""
    proved: set[str] = set()
    for line in lines:
        if done := PROVED.match(line):
            proved.add(done[1])
        if at := LOADED.match(line):
            kind, crate, modules, _ = at.groups()
            if int(modules) and crate in own and (kind == "crate" or crate not in proved):
                yield int(modules), line
        elif KEPT.search(line):
            yield 0, line


def main(log: Path) -> int:
    lines = log.read_text(errors="replace").splitlines()
    own = {crate.name for crate in CRATES.iterdir()}
    found = [*from_before(lines, own)]
    checks = sum(line.startswith("logic=proved ") for line in lines)
    for _, line in found:
        print(f"loaded from before: {line}")
    print(f"{checks} checks; modules loaded from before: {sum(modules for modules, _ in found)}")
    return int(bool(found) or not checks)


if __name__ == "__main__":
    sys.exit(main(Path(sys.argv[1])))
