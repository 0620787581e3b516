"""Plays random sessions of the C library beside the second implementation, while each request for
memory is refused in turn. Runs with refusing_heap.c preloaded: `refused_in_turn.py SEED SESSIONS`.
Prints how often each call was refused memory."""

from __future__ import annotations

import ctypes
import json
import sys
from collections import Counter
from collections.abc import Callable
from itertools import count
from random import Random

import random_cases
from c_library import COMMANDS, NO_MEMORY, CSession, Library, library_folder, want
from c_losses import NewArc
from c_questions import Question, Refusal, answer_of, question
from c_sessions import CODES, Step, compare, moved_rows, random_step, wanted_status
from c_stops import QUESTIONS, Stop, Stoppable
from oracle.network import State
from oracle.problem import problem_text
from oracle.session import Session, SolveReply

# The most nodes of a network, and how many steps and questions a session has.
MOST_NODES, STEPS = 7, 12
# How many arcs that moved fit into each array.
ROOMS = (3, 2, 4)


class Heap:
    """The heap of the library, which refuses what it is told to."""

    def __init__(self) -> None:
        self.calls = ctypes.CDLL(None)
        assert self.calls.heap_watch(b"libdmf.so.0") == 1
        for name in "grant", "blocks":
            getattr(self.calls, f"heap_{name}").restype = ctypes.c_long
        self.refused: Counter[str] = Counter()

    def blocks(self) -> int:
        return int(self.calls.heap_blocks())

    def in_turn(
        self, name: str, call: Callable[[], object], look: Callable[[], object] = tuple
    ) -> object:
        """Return what a call answers. Each of its requests is refused in turn before, and what
        `look` sees is then as it was."""
        before = look()
        for requests in count():
            self.calls.heap_refuse(ctypes.c_long(requests))
            answer = answer_of(call)
            refused = self.calls.heap_grant()
            # A call may also go on without what was refused.
            is_refused = refused > 0 and answer == Refusal(NO_MEMORY)
            self.refused[name] += is_refused
            if not is_refused:
                return answer
            assert look() == before, (name, requests)
        raise AssertionError


def opened(library: Library, heap: Heap, state: State, bound: int, random: Random) -> CSession:
    """Open a session by arrays or by a text. A refused opening leaves no block."""
    ends = state.source, state.sink
    arcs: list[NewArc] = [arc[:3] for arc in state.arcs]
    text = problem_text(state)
    name, call = random.choice(
        [
            ("new", lambda: library.open(state.nodes, ends, arcs, bound)),
            ("read", lambda: library.read(text, bound)),
        ]
    )
    session = heap.in_turn(name, call, heap.blocks)
    assert isinstance(session, CSession), session
    return session


def made(heap: Heap, name: str, library: Library, shared: Stop | None = None) -> Stop:
    stop = heap.in_turn(name, lambda: Stop(library, shared), heap.blocks)
    assert isinstance(stop, Stop), stop
    return stop


def solve_until(library: Library, heap: Heap, given: CSession) -> object:
    """Solve with a stop whose flag is not raised."""
    stop = made(heap, "dmf_stop_new", library)
    shared = made(heap, "dmf_stop_share", library, stop)
    stop.set("free")
    answer = heap.in_turn("solve_until", lambda: want(shared.solve(given)), given.state)
    shared.set("free")
    return answer


def ask(library: Library, heap: Heap, given: CSession, asked: Question, random: Random) -> object:
    """Ask a question by its call, or by that with a stop whose flag is not raised."""
    name, session = asked.call, given
    stop = Stop(library)
    if name in QUESTIONS and random.random() < 0.5:
        name, session = f"{name}_until", Stoppable(given, stop)
    answer = heap.in_turn(name, lambda: asked.ask(session), given.state)
    stop.set("free")
    return answer


def take(library: Library, heap: Heap, given: CSession, step: Step, random: Random) -> object:
    """Take a step by its own call, or as a batch of one command; a solve also with a stop."""
    if step.word == "solve" and random.random() < 0.5:
        return solve_until(library, heap, given)
    if random.random() < 0.5:
        return heap.in_turn(step.word, lambda: given.step(step.word, *step.numbers), given.state)
    rows = [(COMMANDS[step.word], *step.numbers)]
    return heap.in_turn("run", lambda: want(given.run(rows, random)[0]), given.state)


def judge_copy(heap: Heap, given: CSession, wanted: Session) -> None:
    """Copy the session, and step the copy to its first state, which moves the session no step."""
    copied = heap.in_turn("copy", given.copy, heap.blocks)
    assert isinstance(copied, CSession), copied
    with copied:
        compare(copied, wanted)
        if wanted.place:
            copied.step("undo", wanted.place)
        assert copied.array("flows") == wanted.states[0].flows
    compare(given, wanted)


def moved_answer(wanted: Session) -> object:
    rows = moved_rows(wanted)
    if rows is None:
        return Refusal(CODES["nothing to undo"])
    return len(rows), [tuple(row[at] for row in rows[:room]) for at, room in enumerate(ROOMS)]


def play(library: Library, heap: Heap, random: Random) -> None:
    """Play a session; all its blocks are freed in the end."""
    state = random_cases.fitting(random_cases.network(random, MOST_NODES))
    if state.source == state.sink:
        return
    bound = random.choice([0, 1, 3, 1_000_000])
    wanted, blocks = Session(state, SolveReply(), bound), heap.blocks()
    with opened(library, heap, state, bound, random) as given:
        for _ in range(STEPS):
            step = random_step(wanted, random)
            status = wanted_status(wanted, step)
            answer = take(library, heap, given, step, random)
            assert answer == (Refusal(status) if status else None), (step, answer)
            compare(given, wanted)
            moved = heap.in_turn("moved", lambda: given.moved(ROOMS), given.state)
            assert moved == moved_answer(wanted), moved
            judge_copy(heap, given, wanted)
            asked = question(wanted.present(), random)
            answer = ask(library, heap, given, asked, random)
            assert answer == asked.answer, (asked, answer)
    assert heap.blocks() == blocks


def main() -> None:
    seed, sessions = sys.argv[1], int(sys.argv[2])
    library = Library(library_folder())
    heap = Heap()
    for at in range(sessions):
        try:
            play(library, heap, Random(f"refused {seed} {at}"))
        except AssertionError:
            print(f"session {at} of seed {seed}:", file=sys.stderr)
            raise
    print(json.dumps(heap.refused))


if __name__ == "__main__":
    main()
