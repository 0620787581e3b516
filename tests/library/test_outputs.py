"""What each call writes, for each of its answers: odd numbers stand there before the call, and the
library's caller (c_library.py) looks at them."""

from __future__ import annotations

from ctypes import byref, c_size_t, c_uint8, c_uint64
from itertools import product

import pytest
from c_arrays import ODD, ODD_NUMBER, odd_array
from c_library import (
    BAD_LENGTH,
    NO_SUCH_NODE,
    SUM_TOO_LARGE,
    CSession,
    Library,
    Refused,
    library_folder,
)

# Of the five arcs of examples/a.max.
TAILS, HEADS, CAPACITIES = [1, 1, 2, 2, 3], [2, 3, 3, 4, 4], [3, 2, 5, 2, 3]
NODES, ARCS, ENDS = 4, 5, (1, 4)
OK, NO_SUCH_ARC, CLOSED, TO_UNDO, TO_REDO, NOT_GREATEST, BAD_NUMBER = 0, 3, 4, 7, 8, 9, 11
OVER_CAPACITY, NOT_CONSERVED = 13, 14


@pytest.fixture(scope="module")
def library() -> Library:
    return Library(library_folder())


def state(session: CSession) -> tuple[object, ...]:
    numbers = tuple(
        session.number(name)
        for name in ("value", "past", "future", "nodes", "source", "sink", "arcs")
    )
    return (
        numbers,
        session.array("flows"),
        session.array("capacities"),
        session.text("problem"),
        session.text("solution"),
    )


@pytest.mark.parametrize("short", range(3))
@pytest.mark.parametrize("nodes", [NODES, 1])
def test_a_column_of_another_length(library: Library, short: int, nodes: int) -> None:
    """The length is judged first, also where a number is out of range, and whatever the arcs."""
    columns = (TAILS[:], HEADS[:], CAPACITIES[:])
    columns[short].pop()
    with pytest.raises(Refused) as refused:
        library.open_arrays(nodes, ENDS, columns, 9)
    assert refused.value.status == BAD_LENGTH


@pytest.mark.parametrize(
    ("nodes", "ends", "past"),
    [
        (1, (1, 1), 9),
        (4, (4, 4), 9),
        (4, (0, 4), 9),
        (4, (1, 5), 9),
        (2**24 + 1, (1, 4), 9),
        (4, (1, 4), 1_000_001),
    ],
)
def test_a_number_out_of_range(
    library: Library, nodes: int, ends: tuple[int, int], past: int
) -> None:
    with pytest.raises(Refused) as refused:
        library.open_arrays(nodes, ends, (TAILS, HEADS, CAPACITIES), past)
    assert refused.value.status == BAD_NUMBER


@pytest.mark.parametrize(
    ("at", "column", "number", "status"),
    [
        (4, 0, 0, NO_SUCH_NODE),
        (0, 1, 5, NO_SUCH_NODE),
        (2, 0, 5, NO_SUCH_NODE),
        (3, 2, 2**64 - 1, SUM_TOO_LARGE),
        (1, 2, 2**64 - 3, SUM_TOO_LARGE),
    ],
)
def test_the_first_arc_that_is_refused(
    library: Library, at: int, column: int, number: int, status: int
) -> None:
    columns = (TAILS[:], HEADS[:], CAPACITIES[:])
    columns[column][at] = number
    with pytest.raises(Refused) as refused:
        library.open_arrays(NODES, ENDS, columns, 9)
    assert (refused.value.status, refused.value.place) == (status, at)


def test_a_bound_past_the_largest_and_no_problem_text(library: Library) -> None:
    """The bound is judged first: the text's fault is not told."""
    with pytest.raises(Refused) as refused:
        library.read(b"p min 2 0\n", 1_000_001)
    assert (refused.value.status, refused.value.place) == (BAD_NUMBER, 0)
    library.read(b"p max 2 0\nn 1 s\nn 2 t\n", 1_000_000).__exit__()


@pytest.mark.parametrize("name", ["flows", "capacities"])
@pytest.mark.parametrize("count", [0, 1, ARCS - 1, ARCS + 1, NODES])
def test_an_array_of_another_length(library: Library, name: str, count: int) -> None:
    with library.example() as session:
        with pytest.raises(Refused) as refused:
            session.filled(name, c_uint64, count)
        assert refused.value.status == BAD_LENGTH
        assert len(session.filled(name, c_uint64, ARCS)) == ARCS


# The columns of the five arcs after a solve and `close 4`, which takes 2 off arcs 1 and 4.
RANGE = (TAILS, HEADS, [3, 2, 5, 0, 3], [1, 2, 1, 0, 3], [0, 0, 0, 1, 0])


def solved_and_closed(library: Library) -> CSession:
    session = library.example()
    session.step("solve")
    session.step("close", 4)
    return session


@pytest.mark.parametrize("first", range(1, ARCS + 2))
def test_a_range_of_arcs(library: Library, first: int) -> None:
    """Each range that begins here, with each choice of arrays."""
    with solved_and_closed(library) as session:
        before = state(session)
        assert before[1:3] == (tuple(RANGE[3]), tuple(RANGE[2]))
        for count in range(ARCS + 2 - first):
            for wanted in product((False, True), repeat=len(RANGE)):
                given = session.arc_range(first, count, [count * asked for asked in wanted])
                assert given == [
                    tuple(column[first - 1 : first - 1 + count]) if asked else ()
                    for column, asked in zip(RANGE, wanted)
                ]
        assert state(session) == before


@pytest.mark.parametrize(
    ("first", "count"),
    [
        *((0, count) for count in (0, 1, ARCS)),
        *((first, ARCS + 2 - first) for first in range(1, ARCS + 1)),
        (ARCS + 2, 0),
        (2**64 - 1, 0),
        (2**64 - 1, 2),
        (2**63, 1),
    ],
)
def test_a_range_that_is_not_there(library: Library, first: int, count: int) -> None:
    with solved_and_closed(library) as session:
        for lengths in (count,) * 5, (0, count, 0, count, 0):
            with pytest.raises(Refused) as refused:
                session.arc_range(first, count, lengths)
            assert refused.value.status == NO_SUCH_ARC
        with pytest.raises(Refused) as refused:
            session.arc_range(2, 2**64 - 1, (0,) * 5)
        assert refused.value.status == NO_SUCH_ARC


@pytest.mark.parametrize("which", range(5))
@pytest.mark.parametrize("length", [1, 2, 4, ARCS])
@pytest.mark.parametrize("first", [0, 1, ARCS])
def test_a_range_with_an_array_of_another_length(
    library: Library, which: int, length: int, first: int
) -> None:
    """The lengths are judged first, also where the range is not there."""
    lengths = [3] * 5
    lengths[which] = length
    with solved_and_closed(library) as session, pytest.raises(Refused) as refused:
        session.arc_range(first, 3, lengths)
    assert refused.value.status == BAD_LENGTH


@pytest.mark.parametrize("count", [0, 1, NODES - 1, NODES + 1])
def test_a_side_of_another_length(library: Library, count: int) -> None:
    """Of a flow that is not greatest too: the length is judged first."""
    with library.example() as session:
        for _ in range(2):
            with pytest.raises(Refused) as refused:
                session.filled("side", c_uint8, count)
            assert refused.value.status == BAD_LENGTH
            session.step("solve")


def test_a_side(library: Library) -> None:
    with library.example() as session:
        with pytest.raises(Refused) as refused:
            session.filled("side", c_uint8, NODES)
        assert refused.value.status == NOT_GREATEST
        session.step("solve")
        before = state(session)
        assert session.filled("side", c_uint8, NODES) == (1, 0, 0, 0)
        assert state(session) == before


@pytest.mark.parametrize(
    ("flows", "status", "place"),
    [
        ((3, 2, 1, 2, 3), OK, 0),
        ((0,) * ARCS, NOT_GREATEST, 0),
        ((3, 2, 1, 2, 4), OVER_CAPACITY, 5),
        ((3, 2, 2, 2, 3), NOT_CONSERVED, 2),
        ((), BAD_LENGTH, 0),
        ((3, 2, 1, 2), BAD_LENGTH, 0),
        ((3, 2, 1, 2, 3, 0), BAD_LENGTH, 0),
    ],
)
def test_a_check(library: Library, flows: tuple[int, ...], status: int, place: int) -> None:
    with library.example() as session:
        before = state(session)
        if status == OK:
            session.check(flows)
        else:
            with pytest.raises(Refused) as refused:
                session.check(flows)
            assert (refused.value.status, refused.value.place) == (status, place)
        assert state(session) == before


@pytest.mark.parametrize("name", ["problem", "solution"])
def test_a_text_with_room_left(library: Library, name: str) -> None:
    """What stands behind the text stays, and no 0 is added; a byte too little is refused, and the
    whole length told."""
    with library.example() as session:
        session.step("solve")
        text = session.text(name)
        for room in len(text) - 1, len(text), len(text) + 9:
            given, length = odd_array(c_uint8, room), c_size_t(ODD_NUMBER)
            status = getattr(session.calls, f"dmf_session_{name}")(
                session.session, given, c_size_t(room), byref(length)
            )
            written = text if room >= len(text) else b""
            assert status == (OK if written else BAD_LENGTH) and length.value == len(text)
            assert bytes(given) == written + bytes([ODD]) * (room + 1 - len(written))


@pytest.mark.parametrize(
    ("word", "numbers", "status"),
    [
        ("cap", (0, 1), NO_SUCH_ARC),
        ("cap", (6, 1), NO_SUCH_ARC),
        ("cap", (1, 2**64 - 1), SUM_TOO_LARGE),
        ("cap", (5, 1), CLOSED),
        ("add", (0, 1, 1), NO_SUCH_NODE),
        ("add", (1, 5, 1), NO_SUCH_NODE),
        ("add", (1, 4, 2**64 - 1), SUM_TOO_LARGE),
        ("close", (0,), NO_SUCH_ARC),
        ("close", (6,), NO_SUCH_ARC),
        ("close", (5,), CLOSED),
        ("shut", (0,), NO_SUCH_NODE),
        ("shut", (5,), NO_SUCH_NODE),
        ("undo", (4,), TO_UNDO),
        ("undo", (2**64 - 1,), TO_UNDO),
        ("redo", (2,), TO_REDO),
        ("redo", (2**64 - 1,), TO_REDO),
    ],
)
def test_a_refused_command(
    library: Library, word: str, numbers: tuple[int, ...], status: int
) -> None:
    """Three states stand before the present one, and one after it."""
    with library.example() as session:
        for step in "solve", "close 5", "solve", "cap 1 1", "undo 1":
            name, *given = step.split()
            session.step(name, *map(int, given))
        before = state(session)
        with pytest.raises(Refused) as refused:
            session.step(word, *numbers)
        assert refused.value.status == status
        assert state(session) == before


def test_the_number_of_an_added_arc(library: Library) -> None:
    with library.example() as session:
        session.step("solve")
        for number in 6, 7:
            session.step("add", 1, 4, number)
            assert session.number("arcs") == number
            assert (session.array("flows")[-1], session.array("capacities")[-1]) == (0, number)
        session.step("undo", 3)
        assert session.number("arcs") == ARCS


def test_no_session_is_freed(library: Library) -> None:
    library.calls.dmf_session_free(None)


def test_a_network_without_arcs(library: Library) -> None:
    with library.open_arrays(2, (2, 1), ([], [], []), 0) as session:
        session.step("solve")
        assert (
            session.array("flows"),
            session.array("capacities"),
            session.side(),
            session.number("past"),
        ) == ((), (), [2], 0)
        session.check(())
        assert session.number("source") == 2 and session.number("sink") == 1
        session.step("add", 2, 1, 9)
        assert (session.array("capacities"), session.number("nodes")) == ((9,), 2)
