"""The corpus of the fuzz target: cases as files, of which each shows some behaviour that those
which show more do not. Behaviour is what the second implementation goes through, by its branches
and how often it takes each, as the fuzzer AFL counts them; how the run ends, what it tells, and
which reply follows which; and the traits of traits.py."""

from __future__ import annotations

import ast
import hashlib
import os
import re
import sys
from collections import Counter
from collections.abc import Iterable, Iterator
from pathlib import Path
from random import Random
from types import FrameType
from typing import Any

import built
from built import Case
from odd_texts import ODD_BYTES
from oracle import program
from oracle.program import Outcome
from random_cases import random_case
from random_texts import plain_text, with_fault
from random_words import words_of
from traits import fields_of, traits

CORPUS = Path(__file__).resolve().parent / "corpus"
MOST_FILES, MOST_BYTES, MOST_OF_ONE = 200, 300_000, 6_000
ORACLE = os.path.dirname(os.path.abspath(program.__file__))
# A branch is taken once, twice, up to 7 times, or more often.
FEW, OFTEN = 2, 8


class Branches:
    """Counts how often a line of the second implementation follows another one."""

    def __init__(self) -> None:
        self.counts: Counter[tuple[str, int, int]] = Counter()

    def __enter__(self) -> Branches:
        sys.settrace(self.begin)
        return self

    def __exit__(self, *_: object) -> None:
        sys.settrace(None)

    def begin(self, frame: FrameType, event: str, arg: Any) -> Any:
        """What traces a function that begins: nothing outside the second implementation."""
        file = frame.f_code.co_filename
        if not file.startswith(ORACLE):
            return None
        name, before = os.path.basename(file), frame.f_lineno

        def step(frame: FrameType, event: str, arg: Any) -> Any:
            nonlocal before
            if event == "line":
                self.counts[name, before, frame.f_lineno] += 1
                before = frame.f_lineno
            return step

        return step


def how_often(count: int) -> int:
    return min(count, OFTEN).bit_length() if count > FEW else count


def replies(text: bytes) -> Iterator[str]:
    """The kinds of the lines of an answer, but for those of flows, arcs and sides."""
    for line in text.splitlines():
        if line[:1] not in b"fan" and not line.startswith(b"c side"):
            yield re.sub(r"\d+", "N", line.decode())


def judged(case: Case) -> tuple[Outcome, frozenset[object]]:
    """How the second implementation ends on a case, whose problem is put, and the behaviour that
    the case shows."""
    with Branches() as branches:
        wanted = built.wanted(case)
    shown: set[object] = {(*branch, how_often(count)) for branch, count in branches.counts.items()}
    shown |= {wanted.status, *traits(case)}
    for text in wanted:
        if isinstance(text, bytes):
            kinds = [*replies(text)]
            shown |= {*kinds, *zip(kinds, kinds[1:])}
    return wanted, frozenset(shown)


def text_of(case: Case) -> str:
    """A case as a file: its words, its problem, and what is on standard input, if that is another
    text."""
    parts = [case.words, case.problem, *([case.input] if case.input != case.problem else [])]
    return "".join(f"{part!r}\n" for part in parts)


def case_of(file: Path) -> Case:
    words, problem, *rest = map(ast.literal_eval, file.read_text().splitlines())
    return Case(file.name, words, problem, rest[0] if rest else problem)


def cases() -> list[Case]:
    return [case_of(file) for file in sorted(CORPUS.iterdir())]


def size(case: Case) -> int:
    return len(text_of(case))


def least(shown: Iterable[tuple[Case, frozenset[object]]]) -> list[Case]:
    """Of these cases so many as the corpus may have: again and again the one that shows most of
    what those before it do not."""
    left = dict(
        sorted(shown, key=lambda it: (size(it[0]), it[0].words, it[0].problem, it[0].input))
    )
    chosen: list[Case] = []
    seen: set[object] = set()
    while left and len(chosen) < MOST_FILES:
        left = {case: more for case, behaviour in left.items() if (more := behaviour - seen)}
        case = max(left, key=lambda it: len(left[it]), default=None)
        if case is None or sum(map(size, [*chosen, case])) > MOST_BYTES:
            break
        chosen.append(case)
        seen |= left.pop(case)
    return chosen


def write(chosen: Iterable[Case]) -> None:
    """Makes these cases the corpus."""
    texts = {hashlib.sha256(text.encode()).hexdigest()[:12]: text for text in map(text_of, chosen)}
    for file in CORPUS.iterdir():
        if file.name not in texts:
            file.unlink()
    for name, text in texts.items():
        (CORPUS / name).write_text(text)


def mutated_text(text: bytes, other: bytes, random: Random) -> bytes:
    """A text with a few changes: faults in lines or bytes, some lines again, or some of another
    text of its kind."""
    for _ in range(random.choice([1, 1, 2, 4])):
        kind = random.randrange(8)
        if kind < 4:
            text = plain_text(with_fault(fields_of(text)[:-1], random))
        elif kind < 7:
            source = random.choice([text, other, other]).splitlines(keepends=True)
            begin = random.randint(0, len(source))
            piece = source[begin : begin + random.choice([1, 2, 5, 20])] * random.choice(
                [1, 1, 1, 3]
            )
            lines = text.splitlines(keepends=True)
            at = random.randint(0, len(lines))
            text = b"".join([*lines[:at], *piece, *lines[at:]])
        else:
            place = random.randint(0, len(text))
            text = text[:place] + random.choice(ODD_BYTES) + text[place + random.randrange(2) :]
    return text


def mutated(corpus: list[Case], name: str, random: Random) -> Case:
    """A case of the corpus with a few changes, and seldom one from scratch."""
    if not corpus or random.random() < 0.1:
        return random_case(name, random)
    case, other = random.choice(corpus), random.choice(corpus)
    command = (
        case.words[0] if case.words[:1] in ((b"solve",), (b"session",), (b"check",)) else b"solve"
    )
    words = words_of(command, random) if random.random() < 0.3 else case.words
    if case.input == case.problem:
        problem = mutated_text(case.problem, other.problem, random)
        return Case(name, words, problem, problem)
    if random.random() < 0.2:
        return Case(name, words, mutated_text(case.problem, other.problem, random), case.input)
    likely = [it for it in corpus if it.words[:1] == case.words[:1]]
    return Case(
        name, words, case.problem, mutated_text(case.input, random.choice(likely).input, random)
    )
