"""The program as its caller sees it: words, files, standard streams and statuses."""

from __future__ import annotations

import re
from collections.abc import Callable, Sequence
from dataclasses import replace
from itertools import combinations
from pathlib import Path
from typing import NamedTuple, Protocol

from .network import Arc, State, is_greatest, solved
from .problem import read_problem
from .session import MOST_KEPT, MOST_LINES, Refusals, SolveReply, cut_of, run_lines
from .solution import read_solution, solution_text
from .texts import LARGEST, LineFault, written

MOST_BYTES = 1_073_741_824
WELL, SOME_REFUSED, NOT_GREATEST = 0, 1, 1
USAGE, TEXT_FAULT, STREAM_FAULT, NO_MEMORY = 2, 3, 4, 5


class Texts(Protocol):
    """Some texts, as those that a pattern matches."""

    def fullmatch(self, string: bytes, /) -> object:
        """Something that is not None, if the text is one of them."""


class AnySolution(NamedTuple):
    """The solutions on the network of a state that have its value, each with this text after it."""

    state: State
    cut: bytes

    def state_of(self, string: bytes) -> State | None:
        """The state whose solution a text writes, line for line in the order of the arcs, whatever
        its value. None of them is closed."""
        text = string.removesuffix(self.cut)
        flows = [
            int(line.rpartition(b" ")[2])
            for line in text.splitlines()[1:]
            if line.rpartition(b" ")[2].isdigit()
        ]
        state = replace(self.state, flows=tuple(flows))
        is_within = len(flows) == len(state.arcs) and all(
            flow <= arc.cap for arc, flow in zip(state.arcs, flows)
        )
        try:
            read_solution(text, self.state)
        except LineFault:
            return None
        return state if is_within and string == solution_text(state) + self.cut else None

    def fullmatch(self, string: bytes, /) -> State | None:
        state = self.state_of(string)
        return state if state and state.value() == self.state.value() else None


class Outcome(NamedTuple):
    """How a run ends: its status, what it writes to standard output, and what it tells on standard
    error. A pattern stands for the texts that it matches, where the documents do not have the text
    itself, and a judge for those that it takes.
    """

    status: int
    written: bytes | Texts
    told: bytes | Texts = b""

    def allows(self, status: int | None, out: bytes, err: bytes) -> bool:
        """Whether a run that ended so ended as this says."""
        pairs = (self.written, out), (self.told, err)
        return self.status == status and all(
            wanted == got if isinstance(wanted, bytes) else wanted.fullmatch(got) is not None
            for wanted, got in pairs
        )


class Asked(NamedTuple):
    """What words ask for: a command, what is wanted of a solve's reply, the bound of the history,
    the path where one is, whether any greatest flow will do, what is left out in turn, and how many
    of the worst are told, where not all are."""

    command: str
    wanted: SolveReply
    bound: int
    path: str = ""
    is_any: bool = False
    parts: str = "arcs"
    most: int | None = None


class Ended(Exception):
    """A run that ends before it writes anything."""

    def __init__(self, status: int, told: bytes) -> None:
        super().__init__(told)
        self.outcome = Outcome(status, b"", told)


def told(text: object) -> bytes:
    return f"dmf: {text}\n".encode()


READ_FAILED = Ended(STREAM_FAULT, told("read failed"))
TOO_MUCH = told("too much input")
OUT_OF_MEMORY = Outcome(NO_MEMORY, b"", told("no memory"))
RELEASE = (Path(__file__).parents[2] / "VERSION").read_text().strip()
VERSION_LINE = f"dmf {RELEASE}\n".encode()
VERSION = Outcome(WELL, VERSION_LINE)
REFUSED_WORDS = Outcome(USAGE, b"", re.compile(rb"error: .*\nUsage: dmf.*\n", re.DOTALL))
REFUSED_VALUE = Outcome(USAGE, b"", re.compile(rb"error: .*\n", re.DOTALL))
NO_TEXT = Outcome(USAGE, b"", told("a word is not UTF-8"))
FLAGS: dict[str, tuple[str, ...]] = {
    "solve": ("--any", "--brief", "--cut", "--progress"),
    "session": ("--brief", "--cut", "--progress"),
    "check": (),
    "vital": ("--nodes", "--pairs", "--progress", "--second"),
}


# The option with a number that a command takes, and the largest number.
NUMBERS = {"session": ("--history", MOST_KEPT), "vital": ("--worst", 10_000)}


def help_on(words: list[str]) -> Outcome:
    """The help of a command, or of the program. Its text is the program's own, but that it says how
    it is used."""
    usage = b"".join(rb" " + word.encode() for word in words)
    return Outcome(WELL, re.compile(rb".*\nUsage: dmf" + usage + rb"\b.*\n", re.DOTALL))


def bounded(text: bytes) -> bytes:
    if len(text) > MOST_BYTES:
        raise Ended(STREAM_FAULT, TOO_MUCH)
    return text


def judged(read: Callable[..., State], *texts: object) -> State:
    try:
        return read(*texts)
    except LineFault as fault:
        raise Ended(TEXT_FAULT, told(fault)) from None


def solve(problem: bytes, wanted: SolveReply, is_any: bool) -> Outcome:
    state = solved(judged(read_problem, bounded(problem)))
    cut = cut_of(state) if wanted.cut else b""
    if wanted.brief:
        return Outcome(WELL, written("c", "solve", "value", state.value()) + cut)
    return Outcome(WELL, AnySolution(state, cut) if is_any else solution_text(state) + cut)


def value_without(state: State, closed: Callable[[int, Arc], bool]) -> int:
    """The value of a greatest flow of the network in which these arcs can carry nothing, by a solve
    of its own."""
    arcs = tuple(
        arc._replace(cap=0) if closed(number, arc) else arc
        for number, arc in enumerate(state.arcs, 1)
    )
    return solved(replace(state, arcs=arcs)).value()


def values_without(state: State, parts: str) -> list[tuple[tuple[int, ...], int]]:
    """The numbers of what is left out in turn, each with the value without."""
    if parts == "nodes":
        inner = sorted(set(range(1, state.nodes + 1)) - {state.source, state.sink})
        return [((v,), value_without(state, lambda _, arc: v in arc[:2])) for v in inner]
    chosen = combinations(range(1, len(state.arcs) + 1), 2 if parts == "pairs" else 1)
    return [(js, value_without(state, lambda number, _: number in js)) for js in chosen]


def has_room(state: State) -> bool:
    """Whether four more arcs like each one are within the limit."""
    return 5 * sum(arc.cap for arc in state.arcs) <= LARGEST


def values_beside(state: State, parts: str, numbers: tuple[int, ...]) -> list[int]:
    """Where second arcs are asked for, the greatest value with one beside this arc, by a solve of
    its own."""
    if parts != "second":
        return []
    arcs = (*state.arcs, *(state.arcs[number - 1] for number in numbers))
    return [solved(replace(state, arcs=arcs, flows=(*state.flows, 0))).value()]


def vital(problem: bytes, parts: str, most: int | None) -> Outcome:
    state = judged(read_problem, bounded(problem))
    if parts == "second" and not has_room(state):
        raise Ended(STREAM_FAULT, told("no room for second arcs"))
    values = values_without(state, parts)
    if most is not None:
        values = sorted(values, key=lambda row: (row[1], row[0]))[:most]
    lines = [
        written("v", *numbers, value, *values_beside(state, parts, numbers))
        for numbers, value in values
    ]
    return Outcome(WELL, written("c", "value", solved(state).value()) + b"".join(lines))


def check(problem: bytes, solution: bytes) -> Outcome:
    state = judged(read_problem, bounded(problem))
    state = judged(read_solution, bounded(solution), state)
    if is_greatest(state):
        return Outcome(WELL, written("c", "greatest", state.value()))
    return Outcome(NOT_GREATEST, written("c", "flow", state.value()))


def session(
    problem: bytes,
    commands: bytes,
    wanted: SolveReply,
    bound: int,
    refusals: Refusals | None = None,
) -> Outcome:
    state = judged(read_problem, bounded(problem))
    line_count = commands.count(b"\n") + (not commands.endswith(b"\n") and commands != b"")
    is_too_much = len(commands) > MOST_BYTES or line_count > MOST_LINES
    if is_too_much:
        commands = ended_lines(commands[:MOST_BYTES])
    replies, some_refused = run_lines(state, commands, wanted, refusals or Refusals(), bound)
    if is_too_much:
        return Outcome(STREAM_FAULT, replies, TOO_MUCH)
    return Outcome(SOME_REFUSED if some_refused else WELL, replies)


def ended_lines(text: bytes) -> bytes:
    """The lines of a text that a line feed ends."""
    return text[: text.rfind(b"\n") + 1]


def read_file(path: str) -> bytes:
    try:
        with open(path, "rb") as file:
            return file.read()
    except IsADirectoryError:
        raise READ_FAILED from None
    except (OSError, ValueError):
        raise Ended(STREAM_FAULT, told("cannot open the problem")) from None


def asked(words: list[str]) -> Asked | Outcome:
    """What words ask for: the command's word, what is wanted of a solve's reply, the bound of the
    history, and the path where one is; or how the run ends at once. Words are taken from left to
    right."""
    if words in ([], ["--"]):
        return Asked("solve", SolveReply(), MOST_KEPT)
    if words[0] in ("-h", "--help"):
        return help_on([])
    if words[0] in ("-V", "--version"):
        return VERSION
    if words[0] == "help":
        is_known = len(words) == 1 or len(words) == 2 and words[1] in (*FLAGS, "help")
        return help_on(words[1:]) if is_known else REFUSED_WORDS
    if words[0] not in FLAGS:
        return REFUSED_WORDS
    return asked_of(words[0], words[1:])


def number_of(text: str, most: int) -> int | None:
    """The number that a text writes: digits, after a plus or not; none if it is past the most."""
    digits = text.removeprefix("+")
    is_number = digits.isascii() and digits.isdigit()
    return int(digits) if is_number and int(digits) <= most else None


def asked_of(command: str, words: list[str]) -> Asked | Outcome:
    """What the words after a command ask for."""
    path_count = 0 if command in ("solve", "vital") else 1
    paths: list[str] = []
    flags: set[str] = set()
    option, most = NUMBERS.get(command, ("", 0))
    number, are_flags = None, True
    rest = iter(words)
    for word in rest:
        if are_flags and option and (word == option or word.startswith(f"{option}=")):
            value = word.removeprefix(f"{option}=") if "=" in word else next(rest, "--")
            # That a value is missing is told before that the option is there twice.
            is_missing = "=" not in word and value.startswith("-") and value != "-"
            if number is not None and not is_missing:
                return REFUSED_WORDS
            number = number_of(value, most)
            if number is None:
                return REFUSED_VALUE
        elif are_flags and word in ("-h", "--help"):
            return help_on([command])
        elif are_flags and word == "--":
            are_flags = False
        elif are_flags and word in FLAGS[command] and word not in flags:
            flags.add(word)
        elif are_flags and word.startswith("-") and word != "-":
            return REFUSED_WORDS
        else:
            paths.append(word)
        if len(paths) > path_count:
            return REFUSED_WORDS
    if len(paths) < path_count:
        return REFUSED_WORDS
    if "--pairs" in flags and ("--nodes" in flags or number is None):
        return REFUSED_WORDS
    if "--second" in flags and (flags & {"--nodes", "--pairs"} or number is not None):
        return REFUSED_WORDS
    wanted = SolveReply(cut="--cut" in flags, brief="--brief" in flags)
    return Asked(
        command,
        wanted,
        number if command == "session" and number is not None else MOST_KEPT,
        "".join(paths),
        "--any" in flags,
        next((flag[2:] for flag in ("--nodes", "--pairs", "--second") if flag in flags), "arcs"),
        number if command == "vital" else None,
    )


def run(words: Sequence[bytes], standard_input: bytes, refusals: Refusals | None = None) -> Outcome:
    """How the program ends on these words, which are bytes, with this text on standard input."""
    try:
        texts = [word.decode() for word in words]
    except UnicodeDecodeError:
        return NO_TEXT
    asked_for = asked(texts)
    if isinstance(asked_for, Outcome):
        return asked_for
    command, wanted, bound, path, is_any, parts, most = asked_for
    try:
        if command == "solve":
            return solve(standard_input, wanted, is_any)
        if command == "vital":
            return vital(standard_input, parts, most)
        if command == "check":
            return check(read_file(path), standard_input)
        return session(read_file(path), standard_input, wanted, bound, refusals)
    except Ended as ended:
        return ended.outcome
