"""Compares the built program with the second implementation on random cases: what it writes, what
standard error shows, and its status. Each case is run once more with one of its requests for memory
refused. A case that fails is shown as small as it was made, and is put into tests/cases/found.py,
from where it runs from then on. tests/README.md tells how to try more cases, and others.
"""

from __future__ import annotations

import contextlib
import re
import shutil
from collections.abc import Callable
from pathlib import Path
from random import Random

import built
import pytest
import strategies
from built import PROBLEM, Case
from commands import COMMANDS
from compared import compared, judge, judge_seeded, with_arcs_left, with_later_path
from conftest import BATCH, GATE_CASES, batches
from found import FOUND
from hypothesis import given
from hypothesis import strategies as st
from kept import Found, shown_cases, with_cases
from oracle.program import RELEASE
from random_cases import random_case
from reduced import reduced
from refused import REFUSED, ways_of
from traits import TRAITS, traits

# Texts of the documents, each of which some of these cases is to meet: all but want of memory and
# the limits of size.
TEXTS = """problem line expected, second problem line, unknown line, not a max problem,
    wrong number of fields, not a number, number too large, count out of range, no such node,
    neither source nor sink, terminal named twice, source and sink are the same,
    arc before source and sink, too many arcs, too few arcs, source or sink missing,
    capacities past 64 bits, no such arc, over capacity, second value line, value line missing,
    flow not conserved at node, value differs, line too long, unknown command, arc is closed,
    nothing to undo, nothing to redo, flow is not greatest, cannot open the problem, read failed,
    a word is not UTF-8, Usage: dmf, c greatest, c flow, c cut, c side, c solve value, p max"""
NO_MEMORY = "no memory"
REPLIES = {re.split(" [A-Z]", it.reply)[0] for it in COMMANDS.values() if it.reply.startswith("c ")}
ALL_TEXTS = {*re.split(r",\s+", TEXTS), f"dmf {RELEASE}", *REPLIES}
ALL = ALL_TEXTS | TRAITS | {NO_MEMORY}


def pytest_generate_tests(metafunc: pytest.Metafunc) -> None:
    if "batch" in metafunc.fixturenames:
        metafunc.parametrize("batch", range(batches(metafunc.config)))


@pytest.mark.seconds(1)
@pytest.mark.usefixtures("case_folder")
def test_seeded(
    request: pytest.FixtureRequest,
    batch: int,
    faults: str,
    record_property: Callable[[str, object], None],
) -> None:
    seed = request.config.getoption("--seed")
    met: set[str] = set()
    for number in range(batch * BATCH, (batch + 1) * BATCH):
        random = Random(f"{seed}/{number}")
        case = random_case(f"case {number} of seed {seed}", random)
        run, wrong = compared(case)
        judge_seeded(Found(case), faults, wrong)
        met |= {text for text in ALL_TEXTS if text.encode() in run.out + run.err} | {*traits(case)}
        refused = int(10 ** random.uniform(0.5, 3))
        run, calls = built.watch(case, faults, CALL="memory", AT=refused)
        met |= {NO_MEMORY} if REFUSED in calls else set()
        judge_seeded(Found(case, refused), faults, not ways_of(case, run, 1) and run)
    record_property("unmet", sorted(ALL - met))


KINDS = {
    "a solve": strategies.solves(),
    "values": strategies.values(),
    "a session": strategies.sessions(),
    "a check": strategies.checks(),
    "any words": strategies.any_words(),
}


@pytest.mark.seconds(8)
@pytest.mark.parametrize("kind", KINDS)
@given(data=st.data())
def test_drawn(case_room: Path, kind: str, data: st.DataObject) -> None:
    case = data.draw(KINDS[kind])
    with contextlib.chdir(case_room):
        judge(Found(case))


@pytest.mark.seconds(10)
@given(case=strategies.sessions(), number=st.integers(1, 400))
def test_refused_memory(case_room: Path, faults: str, case: Case, number: int) -> None:
    with contextlib.chdir(case_room):
        judge(Found(case, number), faults)


@pytest.mark.usefixtures("case_folder")
@pytest.mark.parametrize("found", [pytest.param(it, id=it.case.name) for it in FOUND])
def test_found(request: pytest.FixtureRequest, found: Found) -> None:
    judge(found, request.getfixturevalue("faults") if found.refused else "")


def test_kept() -> None:
    """What a test showed as it failed is put into the file of cases once, as small as it was shown
    last."""
    found = [
        Found(Case("case 7", (b"check", b"problem.max"), b"p max 2 0\n", b"s \\'1\"\n"), refused)
        for refused in (0, 17)
    ]
    told = [
        f"E   AssertionError: it differs\nE   {it}\nE   \nE       {last}\n"
        for it, last in ((found[1], found[0]), (found[0], found[1]))
    ]
    text = (
        "from __future__ import annotations\n\nfrom built import Case\nfrom kept import Found\n\n"
        "FOUND: list[Found] = [\n]\n"
    )
    kept: dict[str, object] = {}
    exec(
        with_cases(
            with_cases(text, shown_cases(told)), shown_cases([*told, "E   nothing is shown"])
        ),
        kept,
    )
    assert kept["FOUND"] == found


def shown_case(fault: str) -> Case:
    """What the first seeded case that fails is shown as."""
    for number in range(GATE_CASES):
        # Cases of a name of their own, since the outcomes of the second implementation are kept.
        case = random_case(f"{fault}, case {number}", Random(f"{fault}/{number}"))
        try:
            judge_seeded(Found(case), "", compared(case)[1])
        except AssertionError as failure:
            (shown,) = shown_cases([str(failure)])
            found: Found = eval(shown, {"Found": Found, "Case": Case})
            return found.case
    pytest.fail("no case fails")


def size(case: Case) -> int:
    """How many lines a case has."""
    return sum(len(text.splitlines()) for text in {case.problem, case.input})


@pytest.mark.seconds(2)
@pytest.mark.usefixtures("case_folder")
@pytest.mark.parametrize("put", [with_later_path, with_arcs_left])
def test_fault_in_oracle(
    monkeypatch: pytest.MonkeyPatch, put: Callable[[pytest.MonkeyPatch], None]
) -> None:
    """A fault in the second implementation is found, and shown as a case of fewer than ten
    lines."""
    put(monkeypatch)
    assert size(shown_case(put.__name__)) < 10


# What stands in place of the program: it is given other commands, or what it writes is changed.
FAULTY_COPIES = {
    "two steps back are one": """[ "$1" = session ] || exec ./dmf "$@"
sed 's/^undo 2$/undo 1/' | ./dmf "$@"
""",
    "a cut lacks its last node": """./dmf "$@" >written
status=$?
sed '${/^c side/d;}' written
exit $status
""",
}


@pytest.mark.seconds(2)
@pytest.mark.usefixtures("case_folder")
@pytest.mark.parametrize("fault", FAULTY_COPIES)
def test_fault_in_program(monkeypatch: pytest.MonkeyPatch, fault: str) -> None:
    """A fault in a copy of the program is found, and shown as a case of fewer than ten lines."""
    shutil.copy(built.BUILT, "dmf")
    Path("faulty").write_text(f"#!/bin/sh\n{FAULTY_COPIES[fault]}")
    Path("faulty").chmod(0o755)
    monkeypatch.setattr(built, "BUILT", "./faulty")
    assert size(shown_case(fault)) < 10


def closes_wide_arc(case: Case) -> bool:
    """Whether a case closes an arc of capacity 77."""
    capacities = [line.split()[3] for line in case.problem.splitlines() if line.startswith(b"a ")]
    closed = [
        int(line.split()[1]) for line in case.input.splitlines() if line.startswith(b"close ")
    ]
    return any(b"77" in capacities[number - 1 : number] for number in closed)


def test_reduced() -> None:
    """A case is reduced in few tries, none of which is made twice, or in as many as are allowed;
    its commands go on to name their arcs."""
    arcs = b"".join(
        b"a %d %d %d\n" % (node, node + 1, 77 if node == 40 else 5) for node in range(1, 101)
    )
    commands = b"".join(b"cap %d 3\nclose  %03d\n" % (101 - arc, arc) for arc in range(1, 101))
    case = Case(
        "a long case",
        (b"session", b"--cut", PROBLEM),
        b"p max 101 100\nn 1 s\nn 101 t\n" + arcs,
        commands,
    )
    tried: list[Case] = []

    def fails(tried_case: Case) -> bool:
        tried.append(tried_case)
        return closes_wide_arc(tried_case)

    assert reduced(case, fails) == Case("a long case", (), b"a 40 41 77\n", b"close 1\n")
    assert len(tried) == len({*tried}) < 100
    tried.clear()
    assert closes_wide_arc(reduced(case, fails, most=5)) and len(tried) == 5
