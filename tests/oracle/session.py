"""Sessions: command lines, the timeline of whole states, and the replies."""

from __future__ import annotations

from collections.abc import Callable, Iterable
from typing import Any, NamedTuple

from . import changes
from .network import State, is_greatest, smallest_side
from .problem import problem_text
from .solution import cut_text, solution_text
from .texts import Fault, fields_of, judge, number_of, written

MOST_LINES = 1_000_000
# How many states before the present one are kept, where nobody says another number.
MOST_KEPT = 1_000_000
LONGEST_LINE = 4_096
# The forms of commands, as docs/SESSION.md has them. A capital letter stands for a number.
NUMBERED = "cap I U", "add V W U", "close I", "shut V", "solve", "undo", "undo K", "redo", "redo K"
PRINTS = "print problem", "print flow", "print cut"
FORMS = [tuple(form.encode().split()) for form in (*NUMBERED, *PRINTS)]
CHANGES: dict[str, Callable[..., State]] = {
    "cap": changes.cap,
    "add": changes.add,
    "close": changes.close,
    "shut": changes.shut,
    "solve": changes.solve,
}


def command_of(line: bytes, is_ended: bool) -> tuple[Any, ...] | None:
    """The word of the command that a line means, with what it speaks of; None for a blank line and
    a comment."""
    if len(line) > LONGEST_LINE:
        raise Fault("line too long")
    fields = fields_of(line.removesuffix(b"\r") if is_ended else line)
    if not fields or fields[0] == b"c":
        return None
    word, *rest = fields
    forms = [form for form in FORMS if form[0] == word]
    judge(
        (not forms, "unknown command"),
        (len(fields) not in map(len, forms), "wrong number of fields"),
        (word == b"print" and tuple(fields) not in forms, "unknown command"),
    )
    if word == b"print":
        return "print", rest[0].decode()
    numbers = [number_of(field) for field in rest]
    if word in (b"undo", b"redo") and not numbers:
        numbers = [1]
    return word.decode(), *numbers


def cut_of(state: State) -> bytes:
    return cut_text(*smallest_side(state))


class SolveReply(NamedTuple):
    """What is wanted of the reply to a solve: the cut after it, and briefly the value in place of
    the solution."""

    cut: bool = False
    brief: bool = False


class Session:
    """The states of a session, the place of the present one, and how many are kept before it."""

    def __init__(self, state: State, wanted: SolveReply, bound: int = MOST_KEPT) -> None:
        self.states = [state]
        self.place = 0
        self.wanted = wanted
        self.bound = bound

    def present(self) -> State:
        return self.states[self.place]

    def reply(self, word: str, *rest: Any) -> bytes:
        """Carries a command out, and gives its reply. Raises the fault for which it is refused, and
        then changes nothing."""
        if word == "print":
            return self.printed(*rest)
        if word in CHANGES:
            return self.changed(word, *rest)
        self.move(word, *rest)
        return written("c", word, "value", self.present().value())

    def changed(self, word: str, *rest: int) -> bytes:
        state = CHANGES[word](self.present(), *rest)
        self.states = self.states[: self.place + 1] + [state]
        self.place += 1
        if self.place > self.bound:
            del self.states[0]
            self.place -= 1
        if word == "solve":
            solved = (
                written("c", word, "value", state.value())
                if self.wanted.brief
                else solution_text(state)
            )
            return solved + (cut_of(state) if self.wanted.cut else b"")
        number = [len(state.arcs)] if word == "add" else []
        return written("c", word, *number, "value", state.value())

    def move(self, word: str, count: int) -> None:
        if word == "undo" and count > self.place:
            raise Fault("nothing to undo")
        if word == "redo" and count > len(self.states) - 1 - self.place:
            raise Fault("nothing to redo")
        self.place += count if word == "redo" else -count

    def printed(self, what: str) -> bytes:
        state = self.present()
        if what == "problem":
            return problem_text(state)
        if what == "flow":
            return solution_text(state)
        if not is_greatest(state):
            raise Fault("flow is not greatest")
        return cut_of(state)

    def answer(self, place: int, line: bytes) -> bytes:
        """The reply to a line: none to a blank one and to a comment, and that of a refusal where
        the line is refused."""
        try:
            command = command_of(line.removesuffix(b"\n"), line.endswith(b"\n"))
            return self.reply(*command) if command else b""
        except Fault as fault:
            return written("c", "refused", place, fault)

    def may_want_memory(self, word: str, *rest: Any) -> bool:
        """Whether this command may be refused memory, as it stands here: a change that nothing else
        refuses, a print of the cut, and steps forward of which one adds an arc."""
        if word in CHANGES:
            try:
                CHANGES[word](self.present(), *rest)
            except Fault:
                return False
            return True
        if word == "redo":
            later = self.states[self.place : self.place + rest[0] + 1]
            return len(later) == rest[0] + 1 and len(later[0].arcs) < len(later[-1].arcs)
        return (word, *rest) == ("print", "cut")


class Refusals:
    """The lines of a session that are refused memory, counted from 1, where they may be; the lines
    that may be are noted."""

    def __init__(self, lines: Iterable[int] = ()) -> None:
        self.lines = frozenset(lines)
        self.possible: set[int] = set()

    def judge(self, session: Session, line: int, command: tuple[Any, ...]) -> None:
        if session.may_want_memory(*command):
            self.possible.add(line)
            if line in self.lines:
                raise Fault("no memory")


def run_lines(
    state: State, text: bytes, wanted: SolveReply, refusals: Refusals, bound: int = MOST_KEPT
) -> tuple[bytes, bool]:
    """What the lines of a command text write, one reply a line, and whether one of them is refused.
    An empty rest after the last line feed is no line. Lines past the limit are left out."""
    session = Session(state, wanted, bound)
    replies = []
    some_refused = False
    *ended, rest = text.split(b"\n")
    for number, line in enumerate((ended + [rest] * bool(rest))[:MOST_LINES], 1):
        try:
            command = command_of(line, number <= len(ended))
            if command is None:
                continue
            refusals.judge(session, number, command)
            replies.append(session.reply(*command))
        except Fault as fault:
            some_refused = True
            replies.append(written("c", "refused", number, fault))
    return b"".join(replies), some_refused
