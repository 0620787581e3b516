#!/usr/bin/env python3
"""Try all must-fail edits, including those that the gate leaves out: crates/*/more-must-fail/ as
well as crates/*/must-fail/.

    python3 tools/all_edits.py [CRATE..]

`rt must-fail` tries, in a copy of the checkout, the edits of each crate that has more than the gate
tries, or of the crates that are named. Several crates are tried in parallel, as many as processors
and memory allow. The results for a crate are printed once it is done. The last line is 'N passed, M
failed', and the status is 0 only if nothing failed.

An edit passes if the prover refuses it at a goal, which is then printed (tools/must_fail.py). It
fails if the prover accepts it or cannot read it, if it cannot be made, or if it is refused because
of a limit or a lost name.
"""

from __future__ import annotations

import argparse
import os
import shutil
import subprocess
import sys
import tempfile
from concurrent.futures import ThreadPoolExecutor, as_completed
from pathlib import Path

from must_fail import KEPT, MORE, Verdict, edits_of, judge_all, name_of

ROOT = Path(__file__).resolve().parents[1]
# The most memory that the check of an edit takes, in GiB.
MEMORY = 3.5


def crates_with_more() -> list[str]:
    """Return the crates with edits that the gate leaves out, the crate with the most edits
    first."""
    crates = {folder.parent for folder in ROOT.glob(f"crates/*/{MORE}")}
    return [
        crate.name for crate in sorted(crates, key=lambda crate: (-len(all_of(crate)), crate.name))
    ]


def all_of(crate: Path) -> list[Path]:
    """Return the edits of a crate, those that the gate tries first."""
    return [*edits_of(crate, KEPT, MORE)]


def copy_checkout(to: Path) -> None:
    """Copy the files of the checkout, new ones too, and the libraries that are built, and put all
    edits of a crate into one folder."""
    listed = ["git", "ls-files", "-z", "--cached", "--others", "--exclude-standard"]
    names = subprocess.run(
        listed, cwd=ROOT, capture_output=True, text=True, check=True
    ).stdout.split("\0")
    for name in {*filter(None, names)}:
        # A tracked file may have been removed.
        if (ROOT / name).is_file():
            place = to / name.replace(f"/{MORE}/", f"/{KEPT}/")
            if place.exists():
                raise SystemExit(f"all_edits.py: {name} stands in {KEPT}/ too")
            place.parent.mkdir(parents=True, exist_ok=True)
            shutil.copy2(ROOT / name, place)
    for library in ROOT.glob("crates/*/out/rlib"):
        shutil.copytree(library, to / library.relative_to(ROOT))


def at_once() -> int:
    """Return how many crates may be tried in parallel."""
    memory = os.sysconf("SC_PAGE_SIZE") * os.sysconf("SC_PHYS_PAGES") / 2**30
    return max(1, min(len(os.sched_getaffinity(0)), int(memory / MEMORY)))


def tried(crate: str, root: Path) -> str:
    """Return what `rt must-fail` says about the crate's edits."""
    ran = subprocess.run(
        ["rt", "must-fail", crate],
        cwd=root,
        stdin=subprocess.DEVNULL,
        stdout=subprocess.PIPE,
        stderr=subprocess.STDOUT,
        text=True,
    )
    return ran.stdout


def verdicts(crate: str, said: str) -> list[Verdict]:
    """Return the verdict on each edit of a crate, from what `rt` said."""
    found = judge_all(said)
    names = [name_of(edit) for edit in all_of(ROOT / "crates" / crate)]
    return [found.get(name, Verdict(name, "", "it was not tried")) for name in names]


def try_all(crates: list[str]) -> int:
    """Try the edits of these crates, and return the status."""
    judged: list[Verdict] = []
    with tempfile.TemporaryDirectory(prefix="dmf-edits-") as room, ThreadPoolExecutor(
        at_once()
    ) as pool:
        root = Path(room)
        copy_checkout(root)
        runs = {pool.submit(tried, crate, root): crate for crate in crates}
        for run in as_completed(runs):
            crate, said = runs[run], run.result()
            print(said, end="" if said.endswith("\n") or not said else "\n", flush=True)
            judged += verdicts(crate, said)
    for verdict in judged:
        print(f"edit {verdict}")
    passed = sum(bool(verdict.goal) for verdict in judged)
    print(f"{passed} passed, {len(judged) - passed} failed")
    return int(passed < len(judged))


def main() -> int:
    parser = argparse.ArgumentParser(description=(__doc__ or "").splitlines()[0])
    parser.add_argument(
        "crates",
        nargs="*",
        metavar="CRATE",
        help="a crate with must-fail edits; all that have more where none is named",
    )
    crates = parser.parse_args().crates or crates_with_more()
    for crate in crates:
        if not all_of(ROOT / "crates" / crate):
            sys.exit(f"all_edits.py: no crate {crate} has must-fail edits")
    # The copy takes the libraries that this builds; otherwise two crates might build one library at
    # the same time.
    if subprocess.run(
        [ROOT / "dmf", "--version"], stdin=subprocess.DEVNULL, stdout=subprocess.DEVNULL
    ).returncode:
        print("all_edits.py: the program is not built, so no edit was tried")
        print("0 passed, 1 failed")
        return 1
    return try_all(crates)


if __name__ == "__main__":
    sys.exit(main())
