"""Compares the built program and the second implementation with cases that were worked out by hand,
and with each other where a text ends anywhere."""

from __future__ import annotations

import built
import pytest
from built import Case
from oracle.program import Outcome
from words import INPUTS, ROWS, judge, orders, wanted_of
from worked import LIMITS, WORKED, prefixes
from worked_forms import Worked
from worked_once import ONCE

pytestmark = pytest.mark.usefixtures("case_folder")


@pytest.mark.parametrize(
    "worked", [pytest.param(it, id=it.case.name) for it in WORKED + ONCE + LIMITS]
)
def test_worked(worked: Worked) -> None:
    built.put_problem(worked.case)
    assert built.wanted(worked.case) == worked.wanted
    expect(worked.case, worked.wanted)


@pytest.mark.parametrize(
    ("case", "status"), [pytest.param(*it, id=it[0].name) for it in prefixes()]
)
def test_prefix(case: Case, status: int | None) -> None:
    """Each prefix of a text, whose status is known or not."""
    built.put_problem(case)
    wanted = built.wanted(case)
    assert status in (None, wanted.status)
    expect(case, wanted)


@pytest.mark.parametrize("row", [pytest.param(it, id=it.case.name) for it in ROWS])
def test_words(row: Worked) -> None:
    wrong = judge(row)
    assert not wrong, wrong


@pytest.mark.parametrize("command", INPUTS)
def test_orders(command: str) -> None:
    """The options and the path of a command, in every order."""
    built.put_problem(next(orders(command)))
    for case in orders(command):
        ended, wanted = built.run(case), wanted_of(case)
        assert wanted.allows(
            *ended
        ), f"{case.name}: {wanted} is wanted, and the program ends so: {ended}"


def expect(case: Case, wanted: Outcome) -> None:
    run = built.run(case)
    assert wanted.allows(*run), f"the program ends so: {run}"
