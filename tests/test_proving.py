"""Tests what the gate believes of the toolchain's word, by stand-ins for `rt`: of must-fail edits
only refusals at a goal (tools/prove_crates.py), and no work that was not done in the run
(tools/own_kit, tools/loaded.py). tests/toolchain/test_cheats.py has the same cheats on the
toolchain itself."""

from __future__ import annotations

import os
import shutil
import subprocess
import sys
from pathlib import Path

import pytest
from conftest import ROOT
from limits import SECONDS

AT_CODE = (
    "refused, as it must be: note: src/links.rt:248:1: it is not proved that what the function "
    "ensures holds when it returns (`returns`); the facts known"
)
AT_ANSWER = (
    "refused, as it must be: ./proofs/stack/take_off/Answers.antt:15:49: error: "
    "`set_ends-requires-clause-links`: as printed, the two types differ"
)
CUT_OFF = (
    "refused, as it must be: note: src/search/labels.rt:7:1: it is not proved that what the "
    "function ensures holds when it returns (`returns-then-a-b-cl"
)
LONG = (
    "refused, as it must be: ./proofs/closed_side/ClosedSide/drop_shut_gates/Answers.antt:9:10: "
    "error: `returns-in_err-look_back-in-Some-then-len-clause-par"
)
LIMIT = (
    "refused, as it must be (only by a limit of the prover, which gave no verdict, so this says "
    "less of the contract: choose another): antt ran out of stack"
)
LOST = (
    "refused, as it must be (only because a proof file names what the edit took away, so this says "
    "little of the contract): ./proofs/A.antt:1:1: error"
)
LEMMA = (
    "refused, as it must be: ./proofs/Stacks.antt:3:1: error: `all-are-put`: as printed, the two "
    "types differ"
)
GONE = (
    "refused, as it must be: ./proofs/a/Answers.antt:3:1: error: `index-requires` is no name that "
    "rattle asks for"
)
NO_NAME = (
    "BAD EDIT: it did not reach the prover; the first lines of what it said:\nsrc/links.rt:251:14: "
    "error[unsupported-method]: no method named `no_such`"
)
OLD = "BAD EDIT: an 'old:' text is in src/links.rt 0 times, and not once"
UNREAD = (
    "BAD EDIT: the prover cannot read the edited text, so no contract was tried: specs/A.antt:1:1: "
    "error: `it` is not in scope"
)
PROVED = "NOT REFUSED: the crate is still proved with this edit"
KILLED = (
    "NOT TRIED: its check was killed, most likely for memory, so nothing is known of it: run this "
    "again"
)


def tree(root: Path, said: str, *edits: str) -> dict[str, str]:
    """A checkout of one crate with these must-fail edits, and the environment of an `rt` that says
    this and counts one pass."""
    for name in "prove_crates.py", "must_fail.py":
        (root / "tools").mkdir(parents=True, exist_ok=True)
        shutil.copy(ROOT / "tools" / name, root / "tools")
    for edit in edits:
        (root / "crates/low/must-fail").mkdir(parents=True, exist_ok=True)
        (root / f"crates/low/must-fail/{edit}.edit").write_text("an edit\n")
    (root / "said").write_text(said)
    (root / "bin").mkdir()
    (root / "bin/rt").write_text(f'#!/bin/sh\ntest "$*" = "ci --anew" && cat {root}/said\n')
    (root / "bin/rt").chmod(0o755)
    return {**os.environ, "PATH": f"{root / 'bin'}:{os.environ['PATH']}"}


def proved(root: Path, environment: dict[str, str]) -> tuple[int, list[str]]:
    """The status and the lines of tools/prove_crates.py."""
    command = [sys.executable, str(root / "tools/prove_crates.py")]
    ran = subprocess.run(command, env=environment, capture_output=True, text=True, timeout=SECONDS)
    return ran.returncode, ran.stdout.splitlines()


@pytest.mark.parametrize("count", ["rt: FAILED: low/a.edit\n1 passed, 1", "1 passed, 0"])
def test_an_edit_fails_once(tmp_path: Path, count: str) -> None:
    """An edit that cannot be made is one failure, whether or not `rt` counts it as one."""
    environment = tree(tmp_path, f"rt: must-fail low/a.edit: {OLD}\n{count} failed\n", "a")
    assert proved(tmp_path, environment)[1][-1] == "1 passed, 1 failed"


def test_a_toolchain_that_keeps_no_verdicts(tmp_path: Path) -> None:
    """If `rt` prints its usage because it does not know --anew, it is called without; but not if it
    knows the option and fails."""
    environment = tree(tmp_path, "2 passed, 0 failed\n")
    rt = f"""#!/bin/sh
test "$*" != "ci --anew" || {{ echo "usage: rt new FOLDER" >&2; exit 2; }}
test "$*" = ci && cat {tmp_path}/said
"""
    (tmp_path / "bin/rt").write_text(rt)
    assert proved(tmp_path, environment)[1][-1] == "2 passed, 0 failed"
    (tmp_path / "bin/rt").write_text(rt.replace("usage: rt new FOLDER", "rt: out of memory"))
    ended = ["rt: out of memory", "prove_crates.py: rt ended without a count"]
    assert proved(tmp_path, environment) == (1, [*ended, "0 passed, 1 failed"])


@pytest.mark.parametrize(
    ("said", "goal"),
    [
        (AT_CODE, "goal returns of src/links.rt:248"),
        (
            AT_ANSWER,
            "the answer set_ends-requires-clause-links in proofs/stack/take_off/Answers.antt:15",
        ),
        (CUT_OFF, "goal returns-then-a-b-cl of src/search/labels.rt:7"),
        (
            LONG,
            "the answer returns-in_err-look_back-in-Some-then-len-clause-par in "
            "proofs/closed_side/ClosedSide/drop_shut_gates/Answers.antt:9",
        ),
    ],
)
def test_a_refusal_at_a_goal_passes(tmp_path: Path, said: str, goal: str) -> None:
    """It is counted once, and its goal is printed: `rt` counts the crate and the edit."""
    environment = tree(tmp_path, f"rt: must-fail low/a.edit: {said}\n2 passed, 0 failed\n", "a")
    status, lines = proved(tmp_path, environment)
    assert (status, lines[-1], f"edit low/a.edit: refused at {goal}" in lines) == (
        0,
        "2 passed, 0 failed",
        True,
    )


@pytest.mark.parametrize("said", [LIMIT, LOST, LEMMA, GONE, "refused, as it must be"])
def test_another_refusal_fails(tmp_path: Path, said: str) -> None:
    """Refused by a limit, for a lost name, in a lemma, or nobody knows where: `rt` counts each as
    passed."""
    environment = tree(tmp_path, f"rt: must-fail low/a.edit: {said}\n2 passed, 0 failed\n", "a")
    status, lines = proved(tmp_path, environment)
    assert (status, lines[-1]) == (1, "1 passed, 1 failed")
    assert any(line.startswith("edit low/a.edit: not refused at a goal: ") for line in lines)


@pytest.mark.parametrize("said", [NO_NAME, OLD, UNREAD])
def test_a_hollow_edit_fails(tmp_path: Path, said: str) -> None:
    """An edit that cannot be made, compiled or read: `rt` counts it as nothing."""
    environment = tree(tmp_path, f"rt: must-fail low/a.edit: {said}\n1 passed, 0 failed\n", "a")
    assert (proved(tmp_path, environment)[0], proved(tmp_path, environment)[1][-1]) == (
        1,
        "1 passed, 1 failed",
    )


@pytest.mark.parametrize("said", [PROVED, KILLED])
def test_what_fails_already_fails_once(tmp_path: Path, said: str) -> None:
    environment = tree(tmp_path, f"rt: must-fail low/a.edit: {said}\n1 passed, 1 failed\n", "a")
    assert proved(tmp_path, environment)[1][-1] == "1 passed, 1 failed"


def test_an_edit_of_which_nothing_is_said_fails(tmp_path: Path) -> None:
    environment = tree(
        tmp_path, f"rt: must-fail low/a.edit: {AT_CODE}\n2 passed, 0 failed\n", "a", "b"
    )
    status, lines = proved(tmp_path, environment)
    assert (status, lines[-2:]) == (
        1,
        ["edit low/b.edit: not refused at a goal: it was not tried", "2 passed, 1 failed"],
    )


@pytest.mark.parametrize(
    ("said", "status", "last"),
    [("", 1, "0 passed, 1 failed"), ("3 passed, 0 failed\n", 0, "3 passed, 0 failed")],
)
def test_a_count_is_wanted(tmp_path: Path, said: str, status: int, last: str) -> None:
    ended, lines = proved(tmp_path, tree(tmp_path, said))
    assert (ended, lines[-1]) == (status, last)


def loaded(tmp_path: Path, *lines: str) -> tuple[int, str]:
    """The status and the last line of tools/loaded.py on a log, for crates that are named as some
    of the checkout are."""
    log = tmp_path / "log"
    log.write_text("".join(f"{line}\n" for line in lines))
    ran = subprocess.run(
        [sys.executable, ROOT / "tools/loaded.py", log],
        capture_output=True,
        text=True,
        timeout=SECONDS,
    )
    return ran.returncode, ran.stdout.splitlines()[-1]


CHECKED = "logic=proved functions=1 sum=dac8208d650f15bf"
NEW = [
    "statements std: modules loaded=21 checked=0",
    CHECKED,
    "rt: dmf_node proved",
    "statements dmf_node: modules loaded=10 checked=0",
    CHECKED,
]


def test_modules_of_this_run(tmp_path: Path) -> None:
    """Those of the toolchain's libraries, and of a crate that this run has proved before."""
    assert loaded(tmp_path, *NEW) == (0, "2 checks; modules loaded from before: 0")
    assert loaded(tmp_path, *NEW, "crate dmf_links: modules loaded=0 checked=33") == (
        0,
        "2 checks; modules loaded from before: 0",
    )


@pytest.mark.parametrize(
    ("line", "modules"),
    [
        ("crate dmf_links: modules loaded=33 checked=2", 33),
        ("statements dmf_links: modules loaded=7 checked=0", 7),
        ("library dmf_links: modules loaded=9 checked=0", 9),
        (
            "rt: dmf_links is kept: an earlier run on this machine proved the same files over the "
            "same libraries",
            0,
        ),
        (
            "rt: dmf_c: 2 of its 2 must-fail edits were tried by an earlier run on this machine, "
            "and nothing that they stand on has changed",
            0,
        ),
        ("rt: dmf_c: begins with what a check kept in /work/other/crates/dmf_c", 0),
    ],
)
def test_modules_of_before(tmp_path: Path, line: str, modules: int) -> None:
    assert loaded(tmp_path, *NEW, line) == (1, f"2 checks; modules loaded from before: {modules}")


def test_a_log_without_a_check(tmp_path: Path) -> None:
    assert loaded(tmp_path, "rt: dmf_node proved") == (1, "0 checks; modules loaded from before: 0")


def test_the_view_has_no_store(tmp_path: Path) -> None:
    """The command `rt` of a view stands beside a plain file where the toolchain has its store, and
    the rest is the toolchain's own."""
    for name, text in (
        ("bin/rt", '#!/bin/sh\necho ran "$0"\n'),
        ("bin/rtlib.py", "lib\n"),
        ("bin/rattle", "prover\n"),
        ("logic/a", "a\n"),
    ):
        (tmp_path / "kit" / name).parent.mkdir(parents=True, exist_ok=True)
        (tmp_path / "kit" / name).write_text(text)
    (tmp_path / "kit/bin/rt").chmod(0o755)
    (tmp_path / "rattle-kept").mkdir()
    environment = {**os.environ, "PATH": f"{tmp_path / 'kit/bin'}:{os.environ['PATH']}"}
    view = [str(ROOT / "tools/own_kit"), str(tmp_path / "view")]
    ran = subprocess.run(view, env=environment, capture_output=True, text=True, timeout=SECONDS)
    bin_folder = tmp_path / "view/kit/bin"
    assert (ran.returncode, ran.stdout) == (0, f"{bin_folder}\n"), ran.stderr
    assert (tmp_path / "view/rattle-kept").is_file()
    assert [
        (bin_folder / name).resolve().is_relative_to(tmp_path / "view")
        for name in ("rt", "rtlib.py", "rattle")
    ] == [True, True, False]
    assert (bin_folder.parent / "logic/a").read_text() == "a\n"
    assert os.access(bin_folder / "rt", os.X_OK)
