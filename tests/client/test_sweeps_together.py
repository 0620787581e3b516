"""Cases that a sweep sends together, where one of them goes wrong. Worked by hand: over the arcs
side by side flows what all of them carry together, and 300 where none is closed."""

from __future__ import annotations

from collections.abc import Iterator
from concurrent.futures import ThreadPoolExecutor
from contextlib import AbstractContextManager, contextmanager
from pathlib import Path
from typing import Any

import pytest
from client_shared import BUILT, dmf, script
from dmf.session.base import MOST_COMMANDS, case_lines
from dmf.session.process import ProgramSession
from dmf.sweeps.copies import SolvedCopy
from dmf.sweeps.pool import LocalPool
from dmf.text.lexical import LARGEST, MOST_NODES
from limits import SECONDS

ARCS = 24
CLOSED: list[Any] = [[("close", number)] for number in range(1, ARCS + 1)]
VALUES = [300 - number for number in range(1, ARCS + 1)]


@contextmanager
def beside(program: str) -> Iterator[dmf.Network[str]]:
    """Arcs that carry 1, 2 and so on to 24, each with this as its key."""
    with dmf.Network(
        [("a", "b", number, number) for number in range(1, ARCS + 1)], "a", "b", program=program
    ) as network:
        assert network.solve().value == 300
        yield network


def swept(network: dmf.Network[str], cases: Any) -> list[Any]:
    """The values of cases, or the kind of their refusal. An executor takes 16 of them at once."""
    with ThreadPoolExecutor(1) as threads:
        return [
            type(it.refusal) if it.refusal else it.value
            for it in dmf.sweep(network, cases, threads)
        ]


def test_how_much_is_sent_at_once() -> None:
    """The program gets the cases of a piece before it has answered the first: its answer waits, but
    not for ever, until it has been sent all of them."""
    are_sent = '[ "$(grep -c ^close "$0.sent")" -ge 16 ]'
    wait = f"until {are_sent} || [ $((tries += 1)) -gt {20 * SECONDS} ]; do sleep 0.05; done"
    late = (
        f'{BUILT} "$@" | while read line; do case "$line" in "c close"*) {wait}; cp "$0.sent" '
        '"$0.$((count += 1))";; esac; echo "$line"; done'
    )
    with script(f'tee -a "$0.sent" | {late}') as program, beside(program) as network:
        assert swept(network, CLOSED[:16]) == VALUES[:16]
        assert Path(f"{program}.1").read_text().count("close ") == 16


@pytest.mark.parametrize("dies_always", [False, True])
def test_a_program_that_dies_at_one_of_them(dies_always: bool) -> None:
    """That one is tried once more; what came before it stays, and what comes after it is tried on
    another program."""
    dies = "true" if dies_always else '[ ! -e "$0.died" ]'
    note = (
        'case "$line" in "close 7") echo >>"$0.tries"; if '
        + dies
        + '; then touch "$0.died"; exit; fi;; esac'
    )
    with script(
        f'while read line; do {note}; echo "$line"; done | {BUILT} "$@"'
    ) as program, beside(program) as network:
        wanted: list[Any] = VALUES[:]
        if dies_always:
            wanted[6] = dmf.SessionEnded
        assert swept(network, CLOSED) == wanted
        assert Path(f"{program}.tries").read_text() == "\n\n"


def test_a_refusal_that_nobody_foresaw() -> None:
    """As for want of memory: the replies to the cases after it would be of another network, so all
    are tried again."""
    with script(f"sed -u 's/^close 7$/close 99/' | {BUILT} \"$@\"") as program, beside(
        program
    ) as network:
        assert swept(network, CLOSED) == [*VALUES[:6], dmf.NoSuchArc, *VALUES[7:]]


# Each stands for a solve after `close 7`, or for the step back.
@pytest.mark.parametrize(
    "odd",
    [
        "s/^c solve value 293$/c close value 293/",
        "s/^c solve value 293$/c/",
        "/^c solve value 293$/{n;s/300/299/}",
    ],
)
def test_answers_that_are_not_understood(odd: str) -> None:
    with script(f'{BUILT} "$@" | sed -u {odd!r}') as program, beside(program) as network:
        told = swept(network, CLOSED)
        assert (told[:6], told[7:]) == (VALUES[:6], VALUES[7:])
        # A single case does not look at the value of its step back.
        assert told[6] in (dmf.SessionEnded, 293)


def test_what_is_sent_together_is_short(monkeypatch: pytest.MonkeyPatch) -> None:
    """However many commands the cases have: a pipe may have room for a page alone, which is as much
    as all of these."""
    cases: list[Any] = [
        [("close", number) for number in range(1, ARCS + 1) if number != left]
        for left in range(1, ARCS + 1)
    ]
    sent: list[int] = []
    exchange = ProgramSession.exchange

    def noted(child: ProgramSession, lines: str) -> AbstractContextManager[None]:
        sent.append(len(lines) + 1)
        return exchange(child, lines)

    with beside(BUILT) as network:
        copy = SolvedCopy(network._kept.copy(), BUILT)
        assert [answer.value for answer in copy.answers(cases[:1], False)] == [1]
        monkeypatch.setattr(ProgramSession, "exchange", noted)
        assert [answer.value for answer in copy.answers(cases * 20, False)] == list(
            range(1, ARCS + 1)
        ) * 20
        copy.end()
    # Each has 23 commands of 7 or 8 letters, a solve and `undo 24`, with their ends.
    sizes = [8 * 8 + 15 * 9 + len("solve\nundo 24\n")] * 9 + [
        9 * 8 + 14 * 9 + len("solve\nundo 24\n")
    ] * 15
    assert sum(sent) == 20 * sum(sizes)
    assert all(4_096 - max(sizes) < size <= 4_096 for size in sent[:-1]) and sent[-1] <= 4_096


def test_a_case_of_many_commands_goes_alone() -> None:
    """So each of those that go together fits, however long its numbers are."""
    longest = "add", MOST_NODES, MOST_NODES, LARGEST
    assert sum(len(line) + 1 for line in case_lines([longest] * MOST_COMMANDS)) <= 4_096
    with beside(BUILT) as network:
        copy = SolvedCopy(network._kept.copy(), BUILT)
        many: list[Any] = [("add", "a", "b", 1)] * MOST_COMMANDS
        assert (
            copy._commands(many) == [("add", 1, 2, 1)] * MOST_COMMANDS
            and copy._commands([*many, many[0]]) == []
        )
        assert swept(network, [many, [*many, many[0]], CLOSED[0]]) == [
            300 + MOST_COMMANDS,
            301 + MOST_COMMANDS,
            299,
        ]


@pytest.mark.parametrize(
    ("count", "is_worth_it"), [(None, True), (41, False), (100, False), (101, True), (10_000, True)]
)
def test_when_another_session_begins(count: int | None, is_worth_it: bool) -> None:
    """After 1.5 s of trying, as the first took to begin with its first case: if 60 cases are left,
    of 25 ms each, or nobody knows how many."""
    with beside(BUILT) as network:
        here = LocalPool(network._kept.copy(), BUILT, False, 4, count)
        try:
            assert here._is_worth_another()
            here._copies.append(SolvedCopy(network._kept.copy(), BUILT))
            assert not here._is_worth_another(), "the first has not begun yet"
            here._note(1, 0.5, begin_seconds=1.0, is_first=True)
            assert not here._is_worth_another()
            here._note(40, 1.0, begin_seconds=0.0, is_first=False)
            assert here._is_worth_another() == is_worth_it
            here._copies.append(SolvedCopy(network._kept.copy(), BUILT))
            assert not here._is_worth_another(), "the second has not begun yet"
            here._note(1, 0.5, begin_seconds=1.0, is_first=True)
            assert not here._is_worth_another()
        finally:
            here.close()


def test_a_function_makes_nothing_again_that_another_case_did() -> None:
    def again(copy: dmf.Network[Any]) -> None:
        copy.redo()

    def twice(copy: dmf.Network[Any]) -> None:
        copy.close(3)
        copy.close(4)
        copy.undo(2)
        copy.redo(1)

    for case in CLOSED[0], lambda copy: copy.close(1):
        with beside(BUILT) as network:
            assert swept(network, [case, again, case, twice, CLOSED[1], again]) == [
                299,
                dmf.NothingToRedo,
                299,
                297,
                298,
                dmf.NothingToRedo,
            ]
