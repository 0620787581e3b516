"""What a problem text says of its table: written and read back, and what is no such comment."""

from __future__ import annotations

from decimal import Decimal

import pytest
from dmf.quantity import Measure
from dmf.text.problem_text import read_problem
from dmf.text.table_comments import Role, TableComments, described, table_comments

TEXT = """c capacities are those of the table times 10
c unit l/s
c table pipes.csv
c decimal sign ,
c inner node 41 sources
c inner node 42 sinks
c inner node 43 half 4
c inner arc 72 supply 2
c inner arc 74 demand 9 unlimited
c inner arc 75 limit 4
"""
SAID = TableComments(
    Measure(Decimal(10), "l/s", "pipes.csv", ","),
    {41: "sources", 42: "sinks"},
    {43: 4},
    {72: Role("supply", 2), 74: Role("demand", 9, is_unlimited=True), 75: Role("limit", 4)},
)
PROBLEM = "p max 50 0\nn 1 s\nn 2 t\n"


def test_there_and_back() -> None:
    assert table_comments(SAID) == TEXT
    for text in (
        TEXT,
        TEXT.replace("\n", "\r\n"),
        TEXT[:-1],
        f"c hello\n{TEXT}{PROBLEM}",
        "".join(sorted(TEXT.splitlines(keepends=True))),
    ):
        assert described(text.encode()) == SAID
    assert table_comments(TableComments()) == ""
    # With 41 to 43 past the last node and 72 on past the last arc, the measure is left.
    problem = read_problem((TEXT + PROBLEM.replace("50", "40")).encode())
    assert problem.described == TableComments(SAID.measure)


@pytest.mark.parametrize(
    "text",
    [
        "",
        PROBLEM,
        PROBLEM + TEXT.partition("\n")[2],
        "c node 1 c unit l/s\n",
        "c  unit l/s\n",
        "c unit\n",
        "c unit  \n",
        "c decimal sign ;\n",
        "c inner node 41 wells\n",
        "c inner node 43 half\n",
        "c inner arc 72 supply x\n",
        "c inner arc 72 supply 2 of Mill\n",
        "c inner arc 72 supply 2 unlimited or not\n",
        "cc unit l/s\n",
    ],
)
def test_other_comments(text: str) -> None:
    assert described(text.encode()) == TableComments()


def test_the_first_counts() -> None:
    twice = TEXT + TEXT.replace("10\n", "100\n").replace("l/s", "m").replace(
        "half 4", "half 5"
    ).replace("supply 2", "supply 3")
    assert described(twice.encode()) == SAID


def test_odd_names() -> None:
    """What cannot stand on a line is escaped, and does not come back; all else does."""
    said = TableComments(Measure(unit=" m\xb3/h c unit", table="a\nc unit x\u2028\udcfc.csv"))
    assert table_comments(said) == "c unit m\xb3/h c unit\nc table a\\nc unit x\\u2028\\udcfc.csv\n"
    assert described(table_comments(said).encode()).measure == Measure(
        unit="m\xb3/h c unit", table="a\\nc unit x\\u2028\\udcfc.csv"
    )
