#!/usr/bin/env python3
"""Print the contents of each file of definitions and of lemmas, from the comment at its head, as
tables in Markdown.

    python3 tools/list_files.py [CRATE..]

A file of definitions is public if public contracts use it: to know what is proved, read these. A
private one serves contracts inside the crate, the crates above it, and proofs.
"""

from __future__ import annotations

import argparse
import re
import sys
from collections.abc import Iterator
from itertools import takewhile
from pathlib import Path

CRATES = Path(__file__).resolve().parents[1] / "crates"


def first_words(file: Path) -> tuple[str, str]:
    """Return the comment at the head of a file, which says what the file contains, and 'public' or
    'private' if the comment says so."""
    head = takewhile(lambda line: line.startswith("--"), file.read_text().splitlines())
    what, *kind = re.split(
        r"\s*\b(Public|Private): ", " ".join(line.removeprefix("--").strip() for line in head)
    )
    return what, kind[0].lower() if kind else ""


def says_something(file: Path) -> bool:
    """Return True if the file has definitions or lemmas, and is not the proof of one function or a
    list of other files."""
    return (
        file.stem not in ("Lib", "Answers", "Invariants", "Proof")
        and not file.with_suffix("").is_dir()
    )


def tables(crate: Path) -> Iterator[str]:
    """Yield the lines of a crate's tables: its definitions, and then its lemmas."""
    for part, head in ("specs", "| Definitions | What | |\n| --- | --- | --- |"), (
        "proofs",
        "| Lemmas | What |\n| --- | --- |",
    ):
        files = [file for file in sorted((crate / part).rglob("*.antt")) if says_something(file)]
        if files:
            yield head
        for file in files:
            what, kind = first_words(file)
            yield f"| `{file.relative_to(crate / part).with_suffix('')}` | {what} |" + (
                f" {kind} |" if part == "specs" else ""
            )
        if files:
            yield ""


def main() -> None:
    parser = argparse.ArgumentParser(description=(__doc__ or "").splitlines()[0])
    known = sorted(
        folder.parent.name
        for folder in CRATES.glob("*/specs")
        if folder.parent.name.startswith("dmf_")
    )
    parser.add_argument(
        "crates",
        nargs="*",
        metavar="CRATE",
        help=f"one of {', '.join(known)}; all where none is named",
    )
    for name in parser.parse_args().crates or known:
        if name not in known:
            sys.exit(
                f"list_files.py: no crate {name} has definitions; these have: {', '.join(known)}"
            )
        print(f"## `{name}`\n", *tables(CRATES / name), sep="\n")


if __name__ == "__main__":
    main()
