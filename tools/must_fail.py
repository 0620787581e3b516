"""Must-fail edits, and what the prover says about them, for the scripts that try them.

An edit shows that a contract forbids a body only if the prover refuses that body at a goal: at a
promise of the function that was changed, or at one that a caller makes with it. It shows nothing if
it cannot be made, compiled or read, if it changes what is promised, if a proof merely names what it
took away, or if the prover reached a limit of steps, time or memory.
"""

from __future__ import annotations

import re
from collections.abc import Iterator
from pathlib import Path
from typing import NamedTuple

KEPT, MORE = "must-fail", "more-must-fail"

# What `rt` says about one edit: the crate with the edit's file, and the rest of the line.
SAID = re.compile(r"^rt: must-fail (\S+/\S+\.edit): (.*)$")
REFUSED = "refused, as it must be"
# The prover's first complaint, shortened if it is long: either at a place in the code, that
# something is not proved, with the goal's name in brackets; or in the file that answers a
# function's goals, with the name of the goal. `rt` skips complaints about lost names.
AT_CODE = re.compile(
    r"(?:note: )?(?:\./)?(src/\S+?):(\d+):\d+: it is not proved that .*?(?:\(`([^`)]+)|$)"
)
AT_ANSWER = re.compile(
    r"(?:note: )?(?:\./)?(proofs/\S+/(?:Answers|Proof|Invariants)\.antt):(\d+):\d+: "
    r"error: `([^`]+)(?:`: (.*)|$)"
)
LOST_NAME = re.compile(
    r"is not in scope|has no field|has no `|was not admitted|is no name|operand is missing"
    r"|expected the end|cannot continue"
)
GAVE_UP = re.compile(r"`search` gave|gave up at one of its limits")
# Why an edit that is not refused at a goal is not, by the beginning of the line.
REASONS = {
    "BAD EDIT": "it cannot be made, compiled or read",
    "NOT REFUSED": "the crate is proved with it",
    "NOT TRIED": "it was not tried",
    f"{REFUSED} (only because": "a proof only names what it took away",
    f"{REFUSED} (only by a limit": "the prover reached a limit, and gave no verdict",
}


class Verdict(NamedTuple):
    """The verdict on an edit: the goal at which it was refused, with its place, or why it shows
    nothing."""

    edit: str
    goal: str
    reason: str

    def __str__(self) -> str:
        return (
            f"{self.edit}: "
            f"{'refused at ' + self.goal if self.goal else 'not refused at a goal: ' + self.reason}"
        )


def goal_of(complaint: str) -> str:
    """Return the goal that a complaint of the prover is about, with its place, or '' if it is about
    none."""
    if at := AT_CODE.match(complaint):
        name = f"goal {at[3]}" if at[3] else "an unnamed goal"
        return (
            f"{name} of {at[1]}:{at[2]}{' (search gave up)' if GAVE_UP.search(complaint) else ''}"
        )
    at = AT_ANSWER.match(complaint)
    return (
        f"the answer {at[3]} in {at[1]}:{at[2]}" if at and not LOST_NAME.search(at[4] or "") else ""
    )


def judge(line: str) -> Verdict | None:
    """Return the verdict in a line of `rt`, or None if the line is not about an edit."""
    if not (said := SAID.match(line)):
        return None
    edit, text = said.groups()
    for beginning, reason in REASONS.items():
        if text.startswith(beginning):
            return Verdict(edit, "", reason)
    goal = goal_of(text.removeprefix(f"{REFUSED}: ")) if text.startswith(f"{REFUSED}: ") else ""
    return Verdict(edit, goal, "" if goal else f"no goal is named: {text[:200]}")


def judge_all(said: str) -> dict[str, Verdict]:
    """Return the verdicts in what `rt` said, by the names of the edits."""
    return {verdict.edit: verdict for verdict in map(judge, said.splitlines()) if verdict}


def name_of(edit: Path) -> str:
    """Return the name that `rt` gives an edit: its crate and its file."""
    return f"{edit.parents[1].name}/{edit.name}"


def edits_of(crate: Path, *parts: str) -> Iterator[Path]:
    """Yield the edits of a crate, in the order of these folders."""
    for part in parts:
        yield from sorted((crate / part).glob("*.edit"))
