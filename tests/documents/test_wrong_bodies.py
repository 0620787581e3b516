"""Checks what the must-fail edits of must-fail/ and more-must-fail/ say, and how tools/all_edits.py
counts them:

- for each clause of a call that callers have, the gate tries an edit that breaks it, unless none
  can (tools/list_edits.py);
- each edit can be made: each text that it replaces stands in its file exactly once;
- each changes code, and no contract: one that changes what is promised is refused whatever the code
  does;
- the gate tries the five wrong bodies of C's calls that once passed it, and the copies of `main`
  that fail a test are as many as TRUST.md says;
- tools/all_edits.py tries the edits of both folders, and one passes only if the prover refuses it
  at a goal."""

from __future__ import annotations

import os
import re
import shutil
import subprocess
import sys
from collections import Counter
from collections.abc import Iterator
from pathlib import Path

from conftest import ROOT
from mutants import WIRINGS

PARTS = "must-fail", "more-must-fail"
EDITS = sorted(edit for part in PARTS for edit in ROOT.glob(f"crates/*/{part}/*"))
# Wrong bodies of dmf_c that made a library which each test took, and that were proved while the
# contracts said less than dmf.h: the edit that the gate tries for each, and the clause that forbids
# it.
CHEATS = {
    "dmf_session_side-takes_no_array_of_three": ("dmf_session_side", "answer"),
    "dmf_session_new-names_an_arc_of_a_network": ("dmf_session_new", "answer"),
    "dmf_session_read-leaves_a_fault": ("dmf_session_read", "no_fault"),
    "dmf_session_solution-writes_and_refuses": ("dmf_session_solution", "refused"),
    "judge-names_an_arc_without_memory": ("dmf_session_check", "judged"),
}
_REFUSED = "refused, as it must be"
_AT_A_GOAL = (
    f"rt: must-fail high/a.edit: {_REFUSED}: ./proofs/a/Answers.antt:1:1: error: `returns`: as "
    "printed, the two types differ"
)
_LOST_NAME = (
    f"rt: must-fail high/b.edit: {_REFUSED} (only because a proof file names what the edit took "
    "away, so this says little)"
)
_NOT_PROVED = (
    f"rt: must-fail low/a.edit: {_REFUSED}: note: src/lib.rt:7:1: it is not proved that what it "
    "ensures holds (`returns`)"
)
# A stand-in for `rt` that says of the edits of two crates what it says of edits.
RT = f"""#!/bin/sh
test "$1" = must-fail || exit 3
case $2 in
high) echo '{_AT_A_GOAL}'
    echo '{_LOST_NAME}'
    echo 'rt: must-fail high/c.edit: NOT REFUSED: the crate is still proved with this edit' ;;
low) ls crates/low/must-fail >&2
    echo '{_NOT_PROVED}'
    echo 'rt: must-fail low/b.edit: BAD EDIT: there is no file src/b.rt' ;;
esac
"""


def listed(root: Path) -> subprocess.CompletedProcess[str]:
    return subprocess.run(
        [sys.executable, root / "tools/list_edits.py"], capture_output=True, text=True
    )


def table(root: Path) -> list[list[str]]:
    """The call, the clause and the edits of each row."""
    ran = listed(root)
    assert ran.returncode == 0, ran.stderr
    return [
        [cell.strip(" `") for cell in row[1:-1].split("|")] for row in ran.stdout.splitlines()[2:]
    ]


def without_edit(root: Path) -> list[str]:
    """The clauses for which the gate tries no edit, though one may break them."""
    return [
        f"{call} {clause}".strip()
        for call, clause, edits in table(root)
        if edits.endswith("MISSING")
    ]


def test_each_clause_has_an_edit() -> None:
    rows = {(call, clause) for call, clause, _ in table(ROOT)}
    known = {
        ("State::push_arc", "err"),
        ("plan_cap", "takes_off"),
        ("Session::step_watched", "answer"),
        ("History::redo", "memory"),
    }
    assert known | {("run_session", ""), ("read_problem", ""), ("Sink::put", "some")} <= rows
    assert not without_edit(ROOT)
    assert all(edits for _, _, edits in table(ROOT))


def test_a_clause_without_an_edit_is_told(tmp_path: Path) -> None:
    (tmp_path / "tools").mkdir()
    shutil.copy(ROOT / "tools/list_edits.py", tmp_path / "tools")
    shutil.copytree(
        ROOT / "crates",
        tmp_path / "crates",
        ignore=shutil.ignore_patterns("out", "proofs", "specs"),
    )
    (edit,) = (tmp_path / "crates/dmf_solving/must-fail").glob("verdict_of-*.edit")
    more = edit.parents[1] / "more-must-fail" / edit.name
    more.parent.mkdir(exist_ok=True)
    edit.rename(more)
    assert without_edit(tmp_path) == ["run_check"]
    more.write_text(more.read_text().replace("covers: run_check", "covers: run_check (told)"))
    assert (
        f"{more.stem} covers run_check (told), and callers have no such clause"
        in listed(tmp_path).stderr
    )


def test_the_gate_tries_the_cheats_in_c() -> None:
    tried = {(call, clause): edits.split(", ") for call, clause, edits in table(ROOT)}
    assert not [edit for edit, clause in CHEATS.items() if f"dmf_c/{edit}" not in tried[clause]]


def test_how_many_copies_of_main_are_faulty() -> None:
    assert (
        f"each of {len(WIRINGS)} faulty copies fails a test" in (ROOT / "docs/TRUST.md").read_text()
    )


def promises(text: str) -> Counter[str]:
    """The lines of code that say what is required and ensured, and what a type keeps."""
    return Counter(
        re.findall(r"^ *(?:requires|ensures|ghost (?!use )|impl Model).*$", text, re.MULTILINE)
    )


def unmade(edit: Path) -> Iterator[str]:
    """Why an edit cannot be made: it replaces one text after the other, each in what those
    before it have left."""
    said, file, old = edit.read_text(), edit, ""
    texts: dict[Path, str] = {}
    if edit.suffix != ".edit" or not re.match(
        "# .*\\n(covers: .*\\n)*(# .*\\n)*file: .*\\nold: .*\\nnew:", said
    ):
        yield f"{edit}: not of the form of an edit"
    for kind, value in re.findall("^(file|old|new): ?(.*)$", said, re.MULTILINE):
        if kind == "file":
            file = edit.parents[1] / value
        elif kind == "old":
            old = value
            texts.setdefault(file, file.read_text())
            if texts[file].count(old) != 1:
                yield f"{edit}: this stands {texts[file].count(old)} times in its file: {old}"
        else:
            texts[file] = texts[file].replace(old, value)
    for file, text in texts.items():
        if file.relative_to(edit.parents[1]).parts[0] != "src":
            yield f"{edit}: it changes a definition or a proof, and no code"
        elif promises(file.read_text()) - promises(text):
            # A function that the edit adds may promise what it likes.
            yield f"{edit}: it changes what is promised"


def test_an_edit_of_a_promise_is_told(tmp_path: Path) -> None:
    for name, text in ("src/lib.rt", "fn f() -> u64\n    ensures { result ≡ 1 }\n{\n    1\n}\n"), (
        "specs/A.antt",
        "one = 1\n",
    ):
        (tmp_path / name).parent.mkdir()
        (tmp_path / name).write_text(text)
    edit = tmp_path / "must-fail/f.edit"
    edit.parent.mkdir()
    for file, old, new, faults in (
        ("src/lib.rt", "    1", "    2", 0),
        ("src/lib.rt", "≡ 1", "≡ 2", 1),
        ("specs/A.antt", "= 1", "= 2", 1),
    ):
        edit.write_text(f"# It is 1.\nfile: {file}\nold: {old}\nnew: {new}\n")
        assert len([*unmade(edit)]) == faults


def test_each_edit_can_be_made() -> None:
    assert len(EDITS) > 200
    assert not [fault for edit in EDITS for fault in unmade(edit)]


def test_names_are_of_one_folder() -> None:
    names = [(edit.parents[1], edit.name) for edit in EDITS]
    assert len({*names}) == len(names)


def test_all_edits(tmp_path: Path) -> None:
    """A checkout of two crates: each edit is tried, and of five one in each crate passes."""
    for edit in (
        "high/must-fail/a",
        "high/must-fail/b",
        "high/more-must-fail/c",
        "low/must-fail/a",
        "low/more-must-fail/b",
    ):
        path = tmp_path / "root/crates" / f"{edit}.edit"
        path.parent.mkdir(parents=True, exist_ok=True)
        path.write_text("an edit\n")
    for name, said in (("root/dmf", "#!/bin/sh\n"), ("bin/rt", RT)):
        (tmp_path / name).parent.mkdir(exist_ok=True)
        (tmp_path / name).write_text(said)
        (tmp_path / name).chmod(0o755)
    (tmp_path / "root/tools").mkdir()
    for tool in "all_edits.py", "must_fail.py":
        shutil.copy(ROOT / "tools" / tool, tmp_path / "root/tools")
    subprocess.run(["git", "init", "-q", tmp_path / "root"], check=True)
    environment = {**os.environ, "PATH": f"{tmp_path / 'bin'}:{os.environ['PATH']}"}
    command = [sys.executable, str(tmp_path / "root/tools/all_edits.py")]
    ran = subprocess.run(command, env=environment, capture_output=True, text=True)
    assert (ran.returncode, ran.stdout.splitlines()[-1]) == (1, "2 passed, 3 failed"), ran.stderr
    assert re.search(r"^a\.edit\nb\.edit$", ran.stdout, re.MULTILINE)
    told = re.findall(r"^edit (\S+): not refused at a goal", ran.stdout, re.MULTILINE)
    assert sorted(told) == ["high/b.edit", "high/c.edit", "low/b.edit"]
    alone = subprocess.run([*command, "low"], env=environment, capture_output=True, text=True)
    assert alone.stdout.splitlines()[-1] == "1 passed, 1 failed"
    assert (
        subprocess.run([*command, "middle"], env=environment, capture_output=True).returncode == 1
    )
