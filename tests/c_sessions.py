"""Random steps of sessions of the C library, and what each must answer by the second
implementation, which keeps whole states."""

from __future__ import annotations

from random import Random
from typing import NamedTuple

from c_library import CSession, Refused
from oracle.session import Session
from oracle.texts import Fault

CODES = {
    "no such node": 2,
    "no such arc": 3,
    "arc is closed": 4,
    "capacities past 64 bits": 6,
    "nothing to undo": 7,
    "nothing to redo": 8,
    "flow is not greatest": 9,
}


class Step(NamedTuple):
    word: str
    numbers: tuple[int, ...] = ()


def random_step(session: Session, random: Random) -> Step:
    state = session.present()
    arc, node = random.randint(0, len(state.arcs) + 1), random.randint(0, state.nodes + 1)
    capacity = random.choice([0, 1, random.randint(0, 9), random.randint(0, 99), 2**64 - 1])
    count = random.choice([0, 1, 1, 2, random.randint(0, 12)])
    steps = [
        Step("solve"),
        Step("solve"),
        Step("solve"),
        Step("cap", (arc, capacity)),
        Step("cap", (arc, capacity)),
        Step("close", (arc,)),
        Step("shut", (node,)),
        Step("add", (node, random.randint(1, state.nodes), capacity)),
        Step("undo", (count,)),
        Step("undo", (count,)),
        Step("redo", (count,)),
    ]
    return random.choice(steps)


def status_of(session: CSession, step: Step) -> int:
    try:
        session.step(step.word, *step.numbers)
    except Refused as refused:
        return refused.status
    return 0


def wanted_status(session: Session, step: Step) -> int:
    try:
        session.reply(step.word, *step.numbers)
    except Fault as fault:
        return CODES[str(fault)]
    return 0


def compare(given: CSession, wanted: Session) -> None:
    state = wanted.present()
    assert given.number("value") == state.value()
    assert given.number("past") == wanted.place
    assert given.number("future") == len(wanted.states) - 1 - wanted.place
    assert given.array("flows") == state.flows


def moved_rows(wanted: Session) -> list[tuple[int, int, int]] | None:
    """Return the arcs whose flow the last step moved, with the flow before and after; None if there
    is no state before the present one."""
    if wanted.place == 0:
        return None
    before, after = wanted.states[wanted.place - 1 : wanted.place + 1]
    flows = enumerate(zip(before.flows, after.flows), 1)
    return [(arc, old, new) for arc, (old, new) in flows if old != new]
