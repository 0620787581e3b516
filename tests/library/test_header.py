"""What dmf.h says of numbers and of memory, by calls: the faults of texts, what steps of 0 do, and
how much a session takes."""

from __future__ import annotations

import re
from pathlib import Path

import pytest
from c_library import COMMANDS, HEADER, Library, Refused, library_folder
from dmf.session.statuses import FAULTS, REASONS

BEGIN = "p max 4 2\nn 1 s\nn 4 t\n"
LARGEST = 2**64 - 1
# The fault of each number: the line, and a text that has it.
TEXTS = {
    "PROBLEM_LINE_EXPECTED": (1, "n 1 s\n"),
    "SECOND_PROBLEM_LINE": (2, "p max 4 2\np max 4 2\n"),
    "UNKNOWN_LINE": (2, "p max 4 2\nz 1\n"),
    "NOT_MAX": (1, "p min 4 2\n"),
    "FIELD_COUNT": (4, f"{BEGIN}a 1 2\n"),
    "NOT_A_NUMBER": (4, f"{BEGIN}a 1 2 x\n"),
    "TOO_LARGE": (4, f"{BEGIN}a 1 2 {LARGEST + 1}\n"),
    "COUNT_OUT_OF_RANGE": (2, "c one\np max 1 2\n"),
    "NODE_OUT_OF_RANGE": (4, f"{BEGIN}a 1 5 1\n"),
    "NEITHER_SOURCE_NOR_SINK": (2, "p max 4 2\nn 1 x\n"),
    "TERMINAL_NAMED_TWICE": (3, "p max 4 2\nn 1 s\nn 2 s\n"),
    "SAME_TERMINALS": (3, "p max 4 2\nn 1 s\nn 1 t\n"),
    "ARC_BEFORE_TERMINALS": (3, "p max 4 2\nn 1 s\na 1 2 3\n"),
    "TOO_MANY_ARCS": (6, f"{BEGIN}a 1 2 3\na 2 4 3\na 2 4 3\n"),
    "TOO_FEW_ARCS": (5, f"{BEGIN}a 1 2 3\n"),
    "TERMINAL_MISSING": (3, "p max 4 0\nn 1 s\n"),
    "SUM_TOO_LARGE": (5, f"{BEGIN}a 1 2 {LARGEST}\na 2 4 1\n"),
}


@pytest.fixture(scope="module")
def library() -> Library:
    return Library(library_folder())


def numbers(prefix: str) -> dict[str, int]:
    """The numbers of the header whose names begin so."""
    return {
        name: int(number)
        for name, number in re.findall(
            rf"^    DMF_{prefix}(\w+) = (\d+)", HEADER.read_text(), re.MULTILINE
        )
    }


@pytest.mark.parametrize("name", TEXTS)
def test_a_fault_of_a_text(library: Library, name: str) -> None:
    line, text = TEXTS[name]
    with pytest.raises(Refused) as told:
        library.read(text.encode())
    assert (told.value.status, told.value.place) == (
        numbers("")["BAD_TEXT"],
        1_000 * line + numbers("FAULT_")[name],
    )


def test_the_numbers_are_those_of_the_client() -> None:
    faults = numbers("FAULT_")
    assert list(faults) == list(TEXTS) and list(faults.values()) == list(range(1, len(FAULTS)))
    assert FAULTS[-1] == "no memory"
    statuses = {
        name: number
        for name, number in numbers("").items()
        if not name.startswith(("FAULT_", "COMMAND_"))
    }
    assert list(statuses.values()) == list(range(17))
    assert [
        statuses[name]
        for name in ("NO_MEMORY", "NO_SUCH_NODE", "NO_SUCH_ARC", "CLOSED", "NOT_GREATEST")
    ] == [1, 2, 3, 4, 9]
    assert set(REASONS) == set(range(1, 10))
    assert {name.lower(): number for name, number in numbers("COMMAND_").items()} == COMMANDS


def test_no_session_can_be_freed(library: Library) -> None:
    library.calls.dmf_session_free(None)


def test_steps_of_nothing_and_solves_of_nothing(library: Library) -> None:
    with library.read(Path("examples/a.max").read_bytes(), 2) as session:
        for word in "undo", "redo":
            session.step(word, 0)
        assert (session.number("past"), session.number("future")) == (0, 0)
        for past in 1, 2, 2:
            session.step("solve")
            assert (session.number("past"), session.number("value")) == (past, 5)
        session.step("undo", 2)
        assert session.number("future") == 2
        session.step("close", 1)
        assert (
            session.number("past"),
            session.number("future"),
            session.array("capacities")[0],
        ) == (1, 0, 0)


def test_a_history_of_nothing(library: Library) -> None:
    with library.read(Path("examples/a.max").read_bytes(), 0) as session:
        session.step("solve")
        assert (session.number("past"), session.number("value")) == (0, 5)
        with pytest.raises(Refused) as told:
            session.step("undo", 1)
        assert told.value.status == numbers("")["NOTHING_TO_UNDO"]
