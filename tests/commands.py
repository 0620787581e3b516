"""The commands of a session, once. What the tests need of all commands comes from here: the random
lines, the odd lines and the refused calls. So do the lists of commands in other files: those that
`GENERATED` makes, and by command_pages.py those on pages. tests/test_commands.py compares the table
with what else lists commands."""

from __future__ import annotations

import re
from typing import NamedTuple

# What a command's fields stand for, by their names in the documents. What stands in brackets may be
# left out.
ARC, NODE, CAPACITY, STEPS, WHAT = "arc", "node", "capacity", "steps", "what"
KINDS = {"I": ARC, "V": NODE, "W": NODE, "U": CAPACITY, "[K]": STEPS, "WHAT": WHAT}
# What can be printed, and what that is on the pages.
PRINTED = {
    "problem": "the problem of the open arcs",
    "flow": "the present flow, as a solution",
    "cut": "the smallest minimum cut, if the present flow is greatest",
}
# What each of them is in the help, and its lines.
HELP_OF_PRINTED = {
    "problem": ("the network as it is now", "p, n and a lines"),
    "flow": ("how much each arc carries now", "s VALUE, then f lines"),
    "cut": ("where the limit is", "c cut, then c side lines"),
}


def either(words: list[str]) -> str:
    """The words as the choice that they are."""
    return f"{', '.join(words[:-1])} or {words[-1]}"


class Command(NamedTuple):
    """A command."""

    word: str
    fields: tuple[str, ...]
    # The first line of its reply, in which each word in capitals is a number. A solution and a
    # printed text have a form of their own.
    reply: str
    changes: bool
    may_want_memory: bool
    # A line of it, which is accepted on the crossing network.
    example: str
    # How the crate of sessions shows it, with its fields put in.
    variant: str
    # How often random scripts have it.
    weight: float
    # What it may be refused for, beyond what each line may be.
    refusals: tuple[str, ...] = ()
    # What it does, on the pages; what the manual page says besides; and its whole reply where the
    # first line does not tell it.
    does: str = ""
    manual: str = ""
    told: str = ""
    # What it does, and its reply where that has several lines, in the help; and the fields that it
    # takes, at a terminal.
    helps: str = ""
    help_reply: str = ""
    takes: str = "nothing"

    @property
    def kinds(self) -> list[str]:
        return [KINDS[field] for field in self.fields]

    @property
    def form(self) -> str:
        """The line of it, with its fields named."""
        return " ".join([self.word, *self.fields])

    def counts(self) -> set[int]:
        """How many fields may stand after the word."""
        optional = sum(field.startswith("[") for field in self.fields)
        return {len(self.fields) - optional, len(self.fields)}

    def wrong_counts(self) -> list[int]:
        """The least numbers of fields for which it is refused."""
        return [count for count in range(max(self.counts()) + 2) if count not in self.counts()]

    def matches(self, reply: str) -> bool:
        """Whether the first line of a reply that is no refusal has its form."""
        pattern = re.sub(r"[A-Z]+", r"[0-9]+", re.escape(self.reply))
        return re.fullmatch(pattern, reply.split("\n")[0]) is not None


NO_ARC = "no such arc", "arc is closed"
PAST = "capacities past 64 bits"
COMMANDS = {
    command.word: command
    for command in [
        Command(
            "cap",
            ("I", "U"),
            "c cap value VALUE",
            True,
            True,
            "cap 5 1",
            "Cap {{ arc: {}, cap: {} }}",
            5,
            (*NO_ARC, PAST),
            "gives arc I the capacity U",
            helps="the arc can carry CAP",
            takes="an arc and its new capacity",
        ),
        Command(
            "add",
            ("V", "W", "U"),
            "c add I value VALUE",
            True,
            True,
            "add 1 4 7",
            "Add {{ tail: {}, head: {}, cap: {} }}",
            3,
            ("no such node", "too many arcs", PAST),
            "adds an arc from node V to node W of capacity U, with the next number",
            told="`c add I value VALUE`, I the arc's number",
            helps="a new arc leads from node to node",
            takes="two nodes and a capacity",
        ),
        Command(
            "close",
            ("I",),
            "c close value VALUE",
            True,
            True,
            "close 2",
            "Close {{ arc: {} }}",
            1,
            NO_ARC,
            "closes arc I: nothing may flow on it, and answers leave it out",
            "It keeps its number, and only `undo` opens it again.",
            helps="the arc can carry nothing",
            takes="an arc",
        ),
        Command(
            "shut",
            ("V",),
            "c shut value VALUE",
            True,
            True,
            "shut 3",
            "Shut {{ node: {} }}",
            0.5,
            ("no such node",),
            "closes each open arc that leaves node V or enters it, in the order of their numbers, "
            "all as one change",
            helps="every arc at the node is closed",
            takes="a node",
        ),
        Command(
            "solve",
            (),
            "s VALUE",
            True,
            True,
            "solve",
            "Solve",
            4,
            (),
            "goes on from the present flow to a greatest one",
            told="the solution, or with `--brief` `c solve value VALUE`; with `--cut` the smallest "
            "minimum cut after it",
            helps="as much as possible is sent",
            help_reply="s VALUE, then f lines",
        ),
        Command(
            "undo",
            ("[K]",),
            "c undo value VALUE",
            False,
            False,
            "undo 2",
            "Undo({})",
            2,
            ("nothing to undo",),
            "takes back the last K changes, all of them or none; without K one",
            "Flows, too, are as they were.",
            helps="the last change, or K, taken back",
            takes="a count or nothing",
        ),
        Command(
            "redo",
            ("[K]",),
            "c redo value VALUE",
            False,
            True,
            "redo",
            "Redo({})",
            2,
            ("nothing to redo",),
            "makes the last K undone changes again, all of them or none; without K one",
            "After a new change nothing is left to redo.",
            helps="one change, or K, made again",
            takes="a count or nothing",
        ),
        Command(
            "print",
            ("WHAT",),
            "",
            False,
            True,
            "print cut",
            "Print{}",
            2,
            ("flow is not greatest",),
            takes=either([*PRINTED]),
        ),
    ]
}
# The refusals that any line may have.
OF_FORM = (
    "line too long",
    "unknown command",
    "wrong number of fields",
    "not a number",
    "number too large",
)
# When each refusal comes, on the pages, in their order. In place of {} the pages have the commands
# that may be refused so.
REFUSALS = {
    "line too long": "the line has more than 4,096 bytes before its line feed or its end, counting "
    "a carriage return; the rest is skipped",
    "unknown command": "the first field is not a command, or the one field after `print` does not "
    "name anything that can be printed",
    "wrong number of fields": "there are too few fields, or too many",
    "not a number": "the first wrong number from the left has a byte that is not a digit",
    "number too large": "the first wrong number from the left is past 18446744073709551615",
    "no such arc": "the arc of {} is 0 or past the last one",
    "arc is closed": "the arc of {} was closed",
    "no such node": "an end of `add` or the node of `shut` is 0 or past the last node",
    "too many arcs": "{} would pass 134,217,728 arcs, counting closed ones",
    PAST: "the sum of all capacities after {} would be past 18446744073709551615",
    "nothing to undo": "there are fewer than K changes before the present state, or some were "
    "forgotten; nothing is undone",
    "nothing to redo": "fewer than K changes were undone; nothing is redone",
    "flow is not greatest": "`print cut` although some flow has a larger value; `solve` first",
    "no memory": "a request for memory that the command needed was refused; the session goes on",
}
# A command line as the documents list them: what is printed stands out.
LISTED = [command.form for command in COMMANDS.values() if command.word != "print"]
LISTED_PRINTS = [f"print {what}" for what in PRINTED]


def variant_of(line: str) -> str:
    """A command line as the crate of sessions shows it. Its steps are given."""
    word, *fields = line.split()
    return COMMANDS[word].variant.format(*map(str.capitalize, fields))


def odd_lines() -> list[list[bytes]]:
    """Lines that no command is: words that only look like one, too few fields and too many, and
    fields that are no numbers."""
    lines: list[str] = []
    for command in COMMANDS.values():
        lines += [command.word.upper(), f"{command.word}s 1", f"c{command.word}"]
        lines += [" ".join([command.word, *["1"] * count]) for count in command.wrong_counts()]
        numbers = ["1"] * (len(command.fields) - 1)
        if command.fields:
            lines += [
                " ".join([command.word, *numbers, field])
                for field in ("x", "-1", "18446744073709551616")
            ]
    return [line.encode().split() for line in lines]


# Lines of which each call of the libraries is made, and refused memory: changes that add arcs and
# others, steps back, steps forward over additions, and cuts, of which one is told and one is not.
CALLS = (
    "add 1 4 1 / solve / add 1 4 2 / add 1 4 3 / undo 2 / redo 2 / cap 5 1 / add 1 4 4 / undo 3 / "
    "add 1 4 5 / add 1 4 6 / close 1 / print cut / undo 4 / redo 3 / solve / print cut / shut 3 / "
    "undo 1 / redo 1 / add 1 4 7"
).split(" / ")
MADE = "/usr/bin/python3 -m pytest --write tests/test_commands.py makes"
NOTE = f"// `tests/commands.py` has the commands: {MADE} this file.\n"
LISTS = f"# tests/commands.py has the commands:\n# {MADE} these lists.\n\n"
LISTS_END = "# End of these lists.\n"


def calls_text(old: str) -> str:
    """The commands of crates/test_calls, in place of the old text."""
    rows = "".join(f"    Command::{variant_of(line)},\n" for line in CALLS)
    return (
        "//! The commands that a session is given.\n\n"
        f"use dmf_session::Command;\n\n{NOTE}#[rattlefmt::skip]\npub const COMMANDS: [Command; "
        f"{len(CALLS)}] = [\n{rows}];\n"
    )


def words_text(old: str) -> str:
    """The words of crates/test_sessions, each with how many numbers follow it. One that comes more
    often in random scripts stands twice."""
    commands = [it for it in COMMANDS.values() if it.word != "print"]
    words = [(it.word, len(it.fields)) for it in commands for _ in range(1 + (it.weight > 1))] + [
        (it, 0) for it in LISTED_PRINTS
    ]
    rows = "".join(f'    (b"{word}", {count}),\n' for word, count in words)
    return (
        f"//! The words of commands.\n\n{NOTE}\n"
        f"/// How many rows there are.\npub const WORD_COUNT: u32 = {len(words)};\n\n"
        "/// Each word with how many numbers follow it. A word that stands twice is drawn twice as "
        "often.\n"
        f"pub const WORDS: [(&[u8], u32); {len(words)}] = [\n{rows}];\n"
    )


def lists_text(old: str) -> str:
    """The client's file of commands with its lists, which its tools follow sessions by."""
    counts = "".join(
        f'    b"{it.word}": '
        f'({", ".join(map(str, sorted(it.counts())))}{"," * (len(it.counts()) == 1)}),\n'
        for it in COMMANDS.values()
    )
    printed = ", ".join(f'b"{it}"' for it in PRINTED)
    valued = ", ".join(f'b"{it.word}"' for it in COMMANDS.values() if it.reply.startswith("c "))
    front, _, rest = old.partition(LISTS)
    return (
        f"{front}{LISTS}# How many fields may follow each command's word.\nFIELD_COUNTS = {{\n"
        f"{counts}}}\n"
        f"PRINTED = ({printed})\n# The commands whose replies contain the value.\nCHANGES = "
        f"({valued})\n{LISTS_END}{rest.partition(LISTS_END)[2]}"
    )


# What makes each file that has the commands, of the text that stands there.
GENERATED = {
    "crates/test_calls/src/commands.rt": calls_text,
    "crates/test_sessions/src/tests/words.rt": words_text,
    "clients/python/dmf/text/session_commands.py": lists_text,
}
