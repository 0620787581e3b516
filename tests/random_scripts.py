"""Random scripts of commands on a network."""

from __future__ import annotations

from collections.abc import Callable
from random import Random

from commands import ARC, CAPACITY, COMMANDS, NODE, PRINTED, STEPS, WHAT, Command
from odd_texts import ODD_COMMANDS
from oracle.network import State
from random_texts import Lines, line

SOLVE = COMMANDS["solve"]
# The commands that a chain of changes has, and those after one.
CHAINED = [it for it in COMMANDS.values() if it.changes and it is not SOLVE]
AFTER_CHAIN = [COMMANDS[word] for word in ("print", "print", "undo", "redo")]
# An addition is sometimes taken back and made again, before or after the arc is used.
AFTER_ADDITION: list[Lines] = [
    [],
    [],
    [],
    [line("undo"), line("redo")],
    [line("solve"), line("undo", 2), line("redo", 2)],
    [line("undo"), line("solve")],
]


def mixture(random: Random) -> list[Command]:
    """The commands of a script, in any order."""
    # An addition rebuilds all links if an end has no spare one: some scripts have few.
    rest = random.choice([1, 1, 0.1])
    weights = {
        word: it.weight * (rest if word in ("add", "undo") else 1) for word, it in COMMANDS.items()
    }
    weights["print"] += random.randrange(9)
    return random.choices(
        [*COMMANDS.values()],
        [*weights.values()],
        k=random.randint(1, random.choice([3, 8, 20, 60, 200])),
    )


def chains(random: Random) -> list[Command]:
    """The commands of a script that has long chains of changes between its solves. Most of them
    change a capacity, since the others leave little flow for those after them."""
    weights = [it.weight * (3 if it.word == "cap" else 0.5) for it in CHAINED]
    commands = [SOLVE]
    for _ in range(random.randint(1, 3)):
        commands += random.choices(CHAINED, weights, k=random.choice([10, 15, 30, 70]))
        commands += random.choices(AFTER_CHAIN, k=random.randrange(4))
        commands.append(SOLVE)
    return commands


def command_lines(state: State, random: Random) -> Lines:
    """A script of commands. Most of them can be carried out."""
    odd_share = random.choice([0, 0.02, 0.3])
    is_chain = random.random() < 0.2
    commands = chains(random) if is_chain else mixture(random)
    after_addition = [
        lines for lines in AFTER_ADDITION if not is_chain or line("solve") not in lines
    ]
    arc_count = len(state.arcs)
    lines: Lines = []
    for command in commands:
        if random.random() < odd_share:
            lines.append(random.choice(ODD_COMMANDS))
            continue
        arc = random.randint(0 if odd_share else 1, arc_count + 1)
        near = [
            amount
            for known in state.arcs[arc - 1 : arc]
            for amount in (known.cap // 2, known.cap // 2, known.cap, known.cap + 1)
        ]
        amount = random.choice([0, 1, 1, 2, 2, 3, 5, 9, 20, 2**63, *near, *near])
        ends = iter(
            [random.randint(0 if odd_share else 1, state.nodes + bool(odd_share)) for _ in range(2)]
        )
        fields: dict[str, Callable[[], list[object]]] = {
            ARC: lambda: [arc],
            NODE: lambda: [next(ends)],
            CAPACITY: lambda: [amount],
            STEPS: lambda: [random.choice([0, 1, 1, 2, 2, 3, 9])] * random.randrange(2),
            WHAT: lambda: [random.choice([*PRINTED, "flow", "cut"])],
        }
        lines.append(
            line(command.word, *(field for kind in command.kinds for field in fields[kind]()))
        )
        if command.word == "add":
            arc_count += 1
            lines += random.choice(after_addition)
    return lines
