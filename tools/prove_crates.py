#!/usr/bin/env python3
"""Prove each crate and its tests from scratch, and try the must-fail edits of each: `rt ci --anew`,
with a stricter count of the edits.

    python3 tools/prove_crates.py

A toolchain that does not know `--anew` keeps no verdicts, and proves everything from scratch by
`rt ci`. The output of `rt` is passed on. Then follow lines that say when each crate was proved, in
minutes and seconds from the start, and a line for each edit of crates/*/must-fail/: the goal at
which the prover refused it, or why it shows nothing (tools/must_fail.py). `rt` itself accepts edits
that cannot be made, or that are refused because of a limit or a lost name. Here these fail, and so
does an edit that was not tried. The last line is 'N passed, M failed', and the status is 0 only if
nothing failed.
"""

from __future__ import annotations

import re
import subprocess
import sys
import time
from pathlib import Path

from must_fail import KEPT, REFUSED, Verdict, edits_of, judge_all, name_of

ROOT = Path(__file__).resolve().parents[1]
COMMAND = ["rt", "ci"]
# It makes `rt` ignore the verdicts that it keeps. A toolchain without the option prints its usage.
ANEW, USAGE = "--anew", "usage: rt "
COUNT = re.compile(r"^(\d+) passed, (\d+) failed", re.MULTILINE)
# The edits that `rt` counts as passed, and those that it counts as failed. Some toolchains count an
# edit that cannot be made as failed, too, and name it in the last line before the count.
PASSED = re.compile(rf"^rt: must-fail \S+: {REFUSED}", re.MULTILINE)
FAILED = re.compile(r"^rt: must-fail (\S+): NOT (?:REFUSED|TRIED)", re.MULTILINE)
NAMED = re.compile(r"^rt: FAILED: (.*)$", re.MULTILINE)
# Lines that show where the time goes.
STEP = re.compile(
    r"^rt: \w+(?:: its tests are)? (?:NOT )?(?:PROVED|proved)$"
    r"|^rt: \w+: (?:trying its must-fail edits|its tests )|^rt: \w+ ran"
)


def run(command: list[str]) -> tuple[int, str]:
    """Run a command at the root, passing on its output, and return its status and its output. Then
    print when each step was done."""
    begun = time.monotonic()
    said: list[str] = []
    steps: list[str] = []
    with subprocess.Popen(
        command,
        cwd=ROOT,
        stdin=subprocess.DEVNULL,
        stdout=subprocess.PIPE,
        stderr=subprocess.STDOUT,
        text=True,
        errors="replace",
    ) as running:
        for line in running.stdout or ():
            print(line, end="", flush=True)
            said.append(line)
            if STEP.match(line):
                minutes, seconds = divmod(int(time.monotonic() - begun), 60)
                steps.append(f"after {minutes}:{seconds:02} {line}")
    print(*steps, sep="", end="")
    return running.returncode, "".join(said)


def prove() -> tuple[int, str]:
    """Run `rt` to prove everything from scratch, and return its status and its output."""
    status, said = run([*COMMAND, ANEW])
    is_unknown = status != 0 and said.startswith(USAGE) and not COUNT.search(said)
    return run(COMMAND) if is_unknown else (status, said)


def verdicts(said: str) -> list[Verdict]:
    """Return the verdict on each edit in the checkout."""
    found = judge_all(said)
    names = [
        name_of(edit) for crate in sorted(ROOT.glob("crates/*")) for edit in edits_of(crate, KEPT)
    ]
    return [found.get(name, Verdict(name, "", "it was not tried")) for name in names]


def failed_edits(said: str) -> set[str]:
    """Return the edits that `rt` counts as failed."""
    named = " ".join(NAMED.findall(said)).split()
    return {*FAILED.findall(said), *(name for name in named if name.endswith(".edit"))}


def count(status: int, said: str, judged: list[Verdict]) -> tuple[int, int]:
    """Return what passed and what failed: the proofs and runs as `rt` counts them, and the edits by
    their verdicts."""
    counted = COUNT.findall(said)
    if not counted:
        print("prove_crates.py: rt ended without a count")
    passed, failed = map(int, counted[-1]) if counted else (0, 1)
    refused = sum(bool(verdict.goal) for verdict in judged)
    passed = max(0, passed - len(PASSED.findall(said))) + refused
    failed = max(0, failed - len(failed_edits(said))) + len(judged) - refused
    # A status other than 0 without a counted failure is one failure.
    return passed, failed or int(status != 0)


def main() -> int:
    status, said = prove()
    judged = verdicts(said)
    for verdict in judged:
        print(f"edit {verdict}")
    passed, failed = count(status, said, judged)
    print(f"{passed} passed, {failed} failed")
    return int(failed > 0)


if __name__ == "__main__":
    sys.exit(main())
