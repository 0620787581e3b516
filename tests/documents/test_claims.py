"""docs/CLAIMS.txt has what is claimed today: each contract of the calls that callers have, and the
definitions and types on which they rest. So a change that makes a clause weaker changes a line
there. `python3 tools/claims.py --write` rewrites it."""

from __future__ import annotations

import re
import shutil
import subprocess
import sys
from pathlib import Path

import pytest
from c_library import header_calls
from conftest import ROOT

CLAIMS = ROOT / "docs" / "CLAIMS.txt"
sys.path.insert(0, str(ROOT / "tools"))


def printed(root: Path) -> str:
    ran = subprocess.run([sys.executable, root / "tools/claims.py"], capture_output=True, text=True)
    assert ran.returncode == 0, ran.stderr
    return ran.stdout


@pytest.mark.seconds(5)
def test_claims_are_those_of_the_sources() -> None:
    assert (
        printed(ROOT) == CLAIMS.read_text()
    ), "python3 tools/claims.py --write writes docs/CLAIMS.txt anew: look at its diff"


def test_each_clause_is_there() -> None:
    """Each clause of a call of callers, as tools/list_edits.py finds them in another way, and of
    each call of C as the header names them."""
    import list_edits

    claims = re.sub(r"\s+", " ", CLAIMS.read_text())
    heads = {re.sub(r"\s+", " ", home.head).strip() for home in list_edits.front_clauses().values()}
    assert len(heads) > 80
    assert not [head for head in heads if head not in claims]
    calls = header_calls()
    assert len(calls) > 20
    assert not [call for call in calls if f"fn {call}(" not in claims]


def test_each_definition_of_a_session_is_there() -> None:
    """Those on which the main definition rests, as tools/list_definitions.py finds them, line by
    line and without comments."""
    import list_definitions

    claims = {*CLAIMS.read_text().splitlines()}
    found = list_definitions.below(list_definitions.start_of("RunsSessionWith"))
    lines = [
        line.partition(" -- ")[0].rstrip()
        for text in found.values()
        for line in text.splitlines()
        if not line.lstrip().startswith("--")
    ]
    assert len(found) > 200
    assert not [line for line in lines if line and line not in claims]


@pytest.fixture
def copy(tmp_path: Path) -> Path:
    shutil.copytree(
        ROOT / "crates",
        tmp_path / "crates",
        ignore=shutil.ignore_patterns("out", "proofs", "*must-fail"),
    )
    (tmp_path / "tools").mkdir()
    for tool in "claims.py", "list_definitions.py", "list_edits.py":
        shutil.copy(ROOT / "tools" / tool, tmp_path / "tools")
    return tmp_path


# A file, a text of it, what stands there instead, and whether a claim changes.
CHANGES = {
    "a weaker clause": (
        "dmf_state/src/state.rt",
        "result ≡ self.now.network.nodes }",
        "result ≤ self.now.network.nodes }",
        True,
    ),
    "a clause of a trait": (
        "dmf_text/src/reader.rt",
        "n ≤ length buffer.new",
        "n ≤ length buffer.old",
        True,
    ),
    "a definition": (
        "dmf_state/specs/Flow.antt",
        "pub conserved : (v : ℕ) → IsInnerNode n v → IsConservedAt n flows v",
        "",
        True,
    ),
    "a definition below": ("dmf_node/specs/Node.antt", "1 ≤ v", "0 ≤ v", True),
    "a limit": ("dmf_state/src/limits.rt", "16_777_216", "16_777_215", True),
    "a body": ("dmf_state/src/state.rt", "        self.nodes\n", "        self.source\n", False),
    "a comment": (
        "dmf_state/specs/Flow.antt",
        "-- the outflow of node `v`",
        "-- what leaves node `v`",
        False,
    ),
}


@pytest.mark.seconds(5)
@pytest.mark.parametrize("name", CHANGES)
def test_what_changes_a_claim(copy: Path, name: str) -> None:
    file, old, new, changes = CHANGES[name]
    place = copy / "crates" / file
    assert place.read_text().count(old) == 1
    place.write_text(place.read_text().replace(old, new))
    assert (printed(copy) != CLAIMS.read_text()) == changes
