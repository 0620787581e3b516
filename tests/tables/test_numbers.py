"""Numbers as people write them, one by one and in columns, beside a second reading that goes letter
by letter."""

from __future__ import annotations

import unicodedata
from collections.abc import Sequence
from decimal import Decimal
from fractions import Fraction

import pytest
from dmf.quantity import Measure, readings
from dmf.tables.amount_columns import Amounts
from dmf.tables.sheet import Exact, Faults
from hypothesis import given
from hypothesis import strategies as st

SPACES = " \u00a0\u2007\u2009\u202f"


def slow(text: str, sign: str) -> Fraction | None:
    """The number that a text is with this decimal sign."""
    text = "".join(str(unicodedata.decimal(it, it)) for it in text.strip()).replace("\u2212", "-")
    number, e, exponent = text.replace("E", "e").partition("e")
    minus = number[:1] == "-"
    number = number[1:] if number[:1] in "+-" and number[:1] else number
    whole, has_sign, rest = number.partition(sign)
    marks = {it for it in whole if not it.isdigit()}
    groups = [whole]
    if marks:
        (mark,) = (
            marks
            if len({"s" if it in SPACES else "a" if it in "'\u2019" else it for it in marks}) == 1
            else (None,)
        )
        if mark is None or not (mark in SPACES or mark in "'\u2019" or mark in ".,"):
            return None
        groups = whole.translate({ord(it): "|" for it in marks}).split("|")
        if (
            not 1 <= len(groups[0]) <= 3
            or groups[0][0] == "0"
            or any(len(group) != 3 for group in groups[1:])
        ):
            return None
    digits = "".join(groups)
    if not (digits or rest) or not (digits + rest).isascii() or not (digits + rest).isdigit():
        return None
    power = exponent.lstrip("+-")
    if e and (
        not power.isdigit()
        or not power.isascii()
        or len(power) > 3
        or len(exponent) - len(power) > 1
        or int(power) > 40
    ):
        return None
    value, ten = Fraction(int(digits + rest), int(10 ** len(rest))), int(10 ** int(power or 0))
    value = value / ten if exponent[:1] == "-" else value * ten
    return -value if minus else value


def written(whole: int, mark: str, sign: str, rest: str) -> str:
    """A number with this mark between its thousands."""
    return f"{whole:,}".replace(",", mark) + sign + rest


NUMBERS = st.one_of(
    st.text("0123456789.,' \u202f+-e", max_size=12),
    st.builds(
        written,
        st.integers(0, 10**7),
        st.sampled_from(["", ",", ".", " ", "\u00a0", "'"]),
        st.sampled_from(["", ",", "."]),
        st.sampled_from(["", "5", "50", "125"]),
    ),
    st.sampled_from(
        [
            "\u0661\u0662,\u0665",
            "\uff11.\uff15",
            "\u22123",
            "1e3",
            "1,5e-2",
            "0.500",
            "0,500",
            "nan",
            "inf",
            "1_000",
            "0x10",
            "\xb2",
            "--1",
            "1..2",
        ]
    ),
)


@given(NUMBERS)
def test_readings(text: str) -> None:
    found = readings(text)
    for sign in ".,":
        wanted = slow(text, sign)
        assert (Fraction(found[sign]) if sign in found else None) == wanted, (text, sign)


def settled(cells: Sequence[str], sign: str = "") -> tuple[Amounts, list[int]]:
    """A column of these cells in lines from 1 on, and the lines with faults, or without a
    number."""
    amounts, faults = Amounts("capacity"), Faults("")
    for begin in range(0, len(cells), 3):
        amounts.add(list(cells[begin : begin + 3]))
    amounts.settle(range(1, len(cells) + 1), faults, sign)
    missing = (place + 1 for place in amounts.missing)
    return amounts, sorted({*missing, *(fault.line for fault in faults._first)})


COLUMNS = st.one_of(
    st.lists(NUMBERS, min_size=1, max_size=9),
    st.lists(
        st.builds(
            lambda whole, rest: f"{whole},{rest}",
            st.integers(0, 999),
            st.sampled_from(["5", "25", "000", "125"]),
        ),
        min_size=1,
        max_size=9,
    ),
    st.lists(
        st.builds(
            lambda whole, rest: f"{whole}.{rest}",
            st.integers(1, 999),
            st.sampled_from(["000", "125", "250"]),
        ),
        min_size=1,
        max_size=9,
    ),
    st.lists(st.integers(0, 10**25).map(str), min_size=1, max_size=9),
)


@given(COLUMNS, st.sampled_from(["", ".", ","]))
def test_columns(cells: list[str], given_sign: str) -> None:
    """A column is read with the one sign that all its numbers admit; where there is none, or both
    make a difference, that is a fault."""
    by_sign = {sign: [slow(cell, sign) for cell in cells] for sign in ".,"}
    admitted = [
        sign
        for sign in ".,"
        if all(
            number is not None or other is None
            for number, other in zip(by_sign[sign], by_sign["," if sign == "." else "."])
        )
    ]
    if given_sign:
        admitted = [given_sign]
    bad = [
        line
        for line, cell in enumerate(cells, 1)
        if all(by_sign[sign][line - 1] is None for sign in (admitted or ".,"))
    ]
    amounts, lines = settled(cells, given_sign)
    is_open = len(admitted) == 2 and by_sign["."] != by_sign[","]
    if not admitted or is_open:
        assert lines, (cells, "is settled, though it cannot be")
        assert set(bad) <= set(lines)
        return
    numbers = by_sign[admitted[0]]
    below = [line for line, number in enumerate(numbers, 1) if number is not None and number < 0]
    assert lines == sorted({*bad, *below})
    if not lines:
        assert [Fraction(amounts.quantity(place)) for place in range(len(cells))] == numbers
        # The least power of ten that makes all whole.
        most = next(
            power
            for power in range(80)
            if all((number or Fraction(0)) * 10**power % 1 == 0 for number in numbers)
        )
        assert amounts.decimals == most


@pytest.mark.parametrize(
    ("cells", "numbers", "unit"),
    [
        (["47,3", "1.200,5"], ["47.3", "1200.5"], ""),
        (["1,200.5", "3"], ["1200.5", "3"], ""),
        (["1 200", "1'200"], ["1200", "1200"], ""),
        (["12 l/s", "0"], ["12", "0"], "l/s"),
        (["1.200", "3,5"], ["1200", "3.5"], ""),
        (["1,200", "0.5"], ["1200", "0.5"], ""),
        (["1.200", "1.2"], ["1.2", "1.2"], ""),
        ([Exact("1.234"), "2,5"], ["1.234", "2.5"], ""),
        (["1.50 m\xb3/h", "2 m\xb3/h"], ["1.5", "2"], "m\xb3/h"),
    ],
)
def test_settled(cells: list[str], numbers: list[str], unit: str) -> None:
    amounts, lines = settled(cells)
    assert ([amounts.quantity(place) for place in range(len(cells))], amounts.unit, lines) == (
        [*map(Decimal, numbers)],
        unit,
        [],
    )


def test_past_64_bits() -> None:
    """The cell that is past them is named, and no other."""
    faults = Faults("t.csv")
    amounts, _ = settled(["0.5", "1844674407370955161.5", "1844674407370955161.6"])
    amounts.wholes(Measure(Decimal(10)), faults)
    with pytest.raises(
        ValueError,
        match="^t.csv, line 3: '1844674407370955161.6' is past 1844674407370955161.5$",
    ):
        faults.judge()
