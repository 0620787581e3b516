"""Random words that the program is called with, right ones and faulty ones."""

from __future__ import annotations

from random import Random

from built import PROBLEM


def words_of(command: bytes, random: Random) -> tuple[bytes, ...]:
    """Words that ask for this, with or without a cut, brief replies, any greatest flow, nodes,
    pairs of arcs, second arcs, a number of the worst and a bound of the history; some of them are
    faulty."""
    solves = command in (b"solve", b"session")
    path = (
        [random.choices([PROBLEM, b"missing.max", b"folder"], [98, 1, 1])[0]]
        if command in (b"session", b"check")
        else []
    )
    cut = [b"--cut"] * random.randrange(2) if solves else []
    bound = (
        [[b"--history", b"%d" % random.choice(BOUNDS)]]
        if command == b"session" and random.random() < 0.5
        else []
    )
    brief = [b"--brief"] * random.randrange(2) if solves else []
    any_flow = [b"--any"] * random.randrange(2) if command == b"solve" else []
    nodes = [b"--nodes"] * random.randrange(2) if command == b"vital" else []
    second = [b"--second"] if command == b"vital" and random.random() < 0.2 else []
    pairs = [b"--pairs"] if command == b"vital" and random.random() < 0.25 else []
    worst = (
        [[b"--worst", b"%d" % random.choice(MOST_WORST)]]
        if command == b"vital" and random.random() < 0.5
        else []
    )
    flags = cut + brief + any_flow + nodes + pairs + second
    parts = [[word] for word in flags + path] + bound + worst
    words = [command] + [word for part in random.sample(parts, len(parts)) for word in part]
    if words == [b"solve"] and random.random() < 0.3:
        words = []
    if random.random() < 0.03:
        words.insert(random.randint(0, len(words)), random.choice(ODD_WORDS))
    return tuple(words)


BOUNDS = [0, 1, 1, 2, 3, 5, 1_000_000, 1_000_001]
MOST_WORST = [0, 1, 1, 2, 3, 5, 10_000, 10_001]
ODD_WORDS = (
    [b"--history", b"--history=2", b"+1", b"1000001", b"-1"]
    + [
        b"solve",
        b"session",
        b"check",
        b"vital",
        b"help",
        b"--help",
        b"-h",
        b"--version",
        b"-V",
        b"--any",
        b"--brief",
        b"--cut",
        b"--nodes",
        b"--pairs",
        b"--second",
        b"--worst",
        b"--",
        b"wash",
        b"--wash",
    ]
    + [PROBLEM, b"missing.max", b"folder", b"\xff", b"", b"./" + PROBLEM]
)


def random_words(random: Random) -> tuple[bytes, ...]:
    """Any words. The problem's file may be missing, or a folder."""
    return tuple(random.choices(ODD_WORDS, k=random.randrange(5)))
