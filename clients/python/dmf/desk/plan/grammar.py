"""The words of dmf-plan: its commands, how a line is parted into words, what one word may be, and
how it is completed."""

from __future__ import annotations

from collections.abc import Iterator
from typing import NamedTuple

from ...quantity import readings
from ...text.spelling import cleaned, folded, quoted_name
from ..project.scenarios import BASE, Scenarios
from ..steps import DeskFault
from ..workspace import Desk

LONGEST_COUNT = 12
FLOW, PLACE, ARC, CLOSED, COMMAND, EACH, SCENARIO, LOSS, WORST = (
    "flow",
    "place",
    "arc",
    "closed",
    "command",
    "each",
    "scenario",
    "loss",
    "worst",
)
# The words of `worst` for places, and for pairs of arcs.
PLACES, PAIRS = "places", "pairs"
# The word between two arcs, and between conditions.
AND = "and"


class Help(NamedTuple):
    """The help of a command: its form, what it does, which names may follow it, and a shorter form
    for lists."""

    form: str
    says: str
    takes: str = ""
    short: str = ""


ARCS_SAID = (
    'Give an arc by its name, by its ends as in Mill-Town or "Mill Town", or by its number as in '
    "#7. A name with spaces needs quotes, unless the line can mean only one thing without them."
)
MANY_SAID = (
    "With `where` and conditions in place of ARC, the command is about all arcs that meet them, in "
    "one step: close where name ~ DN200, cap where capacity < 60 and full +10 %, open where to ~ "
    "Mill."
)
COMMANDS = {
    "solve": Help(
        "solve", "Finds the greatest value that can be sent, going on from the present flow."
    ),
    "cut": Help(
        "cut",
        "Shows the limit: the arcs that keep the value from growing, and the places on the "
        "source's side of them.",
    ),
    "flow": Help(
        "flow [ARC|PLACE]", "Shows what flows on each arc, or on one, or on those at a place.", FLOW
    ),
    "pipes": Help(
        "pipes [where CONDITIONS]",
        "Lists the arcs of the table, or those that meet conditions: pipes where limit.",
    ),
    "places": Help(
        "places",
        "Lists the places, with what comes in and goes out, and says which demands are short.",
    ),
    "from": Help("from PLACE", "Shows what flows on each arc out of a place.", PLACE),
    "close": Help("close ARC", f"Closes an arc. {ARCS_SAID} {MANY_SAID}", ARC),
    "open": Help(
        "open [ARC|PLACE]",
        "Opens a closed arc, or a place that is shut; alone, what was closed or shut last.",
        CLOSED,
    ),
    "cap": Help(
        "cap ARC NUMBER [back NUMBER]",
        "Gives an arc another capacity: 47.3, or +10 % or -5 of what it has. One that leads both "
        "ways gets it each way; with `back`, the first is from its first place to its second, and "
        f"the other one back: cap Main 50 back 30. {ARCS_SAID} {MANY_SAID}",
        ARC,
    ),
    "add": Help(
        "add [--new] PLACE [--new] PLACE NUMBER [NAME]",
        "Adds an arc from the first place to the second, with a capacity. With `--new` before its "
        "name, a place that does not exist is made; at a terminal, you are asked whether to make "
        "it.",
        PLACE,
        "add PLACE PLACE NUMBER [NAME]",
    ),
    "shut": Help("shut PLACE", "Closes each arc at a place.", PLACE),
    "undo": Help("undo [NUMBER]", "Undoes the last step, or the last NUMBER steps."),
    "redo": Help("redo [NUMBER]", "Redoes the step that was undone last, or NUMBER steps."),
    "steps": Help("steps", "Lists the steps with the value after each."),
    "try": Help(
        "try", "Begins a trial: `drop` undoes everything done after this, and `keep` keeps it."
    ),
    "keep": Help(
        "keep [FILE]",
        "Ends the trial, and keeps its steps; with FILE, keeps all steps in a new project, whose "
        "name ends with .dmf.json.",
    ),
    "drop": Help("drop", "Ends the trial, and undoes its steps."),
    "what-if": Help(
        "what-if each arc [of the cut | at PLACE]  or  what-if COMMAND",
        "Lists for each arc the greatest value if it alone is closed, and if a second one is added "
        "beside it; or shows the value after a command and a solve. Nothing changes.",
        EACH,
        "what-if each arc ..",
    ),
    "cost": Help(
        "cost [COLUMN] [of seconds] [to NUMBER]",
        "Shows what one unit more costs at each arc of the limit, by the column of the table "
        "called cost or by another one, and a cheap way to twice the value or to NUMBER. It is "
        "found greedily: a cheaper one may exist. With `of seconds` the column has the cost of "
        "a second arc. Nothing changes.",
        "",
        "cost ..",
    ),
    "worst": Help(
        "worst [places | pairs] [NUMBER]",
        "Lists the NUMBER arcs (10 by default) whose loss lowers the value most, each with the "
        "value that is left without it; with `places` the places, except one that is the only "
        "source or sink. With `pairs` it lists the pairs of open arcs whose loss together lowers "
        "the value most. Nothing changes.",
        WORST,
    ),
    "worth": Help(
        "worth ARC [and ARC] | PLACE",
        "Shows the value that is left without an arc, or without a place and each arc at it. Of "
        "two arcs, or of several that have one name, it shows what is left without each, and "
        "without all of them. `worth place NAME` is about a place. Nothing changes.",
        LOSS,
    ),
    "draw": Help(
        "draw FILE",
        "Draws the network: FILE ends with .svg, .png or .pdf, or with .dot for the text alone.",
    ),
    "save": Help(
        "save FILE",
        "Writes the plan as a table if FILE ends with .csv, or the problem if it ends with .max.",
    ),
    "scenario": Help(
        "scenario [new NAME [from OTHER] | go NAME | copy NAME | name NAME | delete NAME | note "
        "TEXT]",
        "Lists the scenarios of a project, or begins, goes to, copies, renames, deletes or notes "
        "one. A new one begins from the network of the table, or with the steps that another one "
        "has now; `copy`, `name` and `note` are about the present one. A NAME with spaces needs "
        "quotes, unless it ends the line.",
        SCENARIO,
        "scenario ..",
    ),
    "compare": Help(
        "compare [SCENARIO] SCENARIO",
        "Shows how two scenarios differ: value, limit and arcs; base is the table's network.",
        SCENARIO,
    ),
    "report": Help(
        "report FILE",
        "Writes a report as a page whose name ends with .html: values, limits, steps, pictures, "
        "and the arcs, places and pairs of arcs whose loss lowers the value most.",
    ),
    "notes": Help(
        "notes [TEXT]",
        "Shows the notes of a project, or replaces them. Its report begins with them: with the "
        "question.",
    ),
    "help": Help("help [COMMAND]", "Lists the commands, or explains one.", COMMAND),
    "quit": Help("quit", "Ends; only a project keeps what was done."),
}
CHANGES = ("close", "open", "cap", "add", "shut")
# The word before the name of a place that `add` makes.
NEW = "--new"
# These need no session.
ALWAYS = ("save", "steps", "help", "quit")


class Word(NamedTuple):
    """A word of a line, the position where it begins, and whether its quote was not closed."""

    text: str
    start: int
    is_open: bool = False


def split(line: str) -> list[Word]:
    """Return the words of a line. A word that begins with a double quote goes on to the next, and
    two quotes in it stand for one."""
    words = []
    at = 0
    while at < len(line):
        if line[at] in " \t":
            at += 1
        elif line[at] == '"':
            word = _quoted(line, at)
            words.append(word[0])
            at = word[1]
        else:
            end = next((place for place in range(at, len(line)) if line[place] in " \t"), len(line))
            words.append(Word(line[at:end], at))
            at = end
    return words


def _quoted(line: str, start: int) -> tuple[Word, int]:
    """Return the word whose quote opens at a place, and the place after it."""
    text, at = "", start + 1
    while True:
        end = line.find('"', at)
        if end < 0:
            return Word(text + line[at:], start, True), len(line)
        text += line[at:end]
        at = end + 1
        if line[at : at + 1] != '"':
            return Word(text, start), at
        text += '"'
        at += 1


def quoted(name: str) -> str:
    """Return a name as it is typed as one word."""
    if name and not any(letter in name for letter in ' \t"'):
        return name
    return '"' + name.replace('"', '""') + '"'


def typed_form(name: str, is_open: bool) -> str:
    whole = quoted(name)
    return whole if whole != name or not is_open else f'"{name}"'


def no_words(words: list[str], command: str) -> None:
    if words:
        raise DeskFault(f"usage: {COMMANDS[command].form}")


def one_name(words: list[str], command: str) -> str:
    """Return the rest of the line after a command, which is a name."""
    name = cleaned(" ".join(words))
    if not name:
        raise DeskFault(f"usage: {COMMANDS[command].form}")
    return name


def is_number(word: str) -> bool:
    """Return True if a word can be a number."""
    return bool(readings(word))


def count_of(words: list[str], command: str, things: str = "steps") -> int:
    """Return the number of these things that a command names."""
    if len(words) > 1:
        raise DeskFault(f"usage: {COMMANDS[command].form}")
    if words and not (words[0].isascii() and words[0].isdigit() and len(words[0]) < LONGEST_COUNT):
        raise DeskFault(f"{quoted_name(words[0])} is not a number of {things}")
    return int(words[0]) if words else 1


class Completed(NamedTuple):
    """The texts that can replace the end of a line, from this position."""

    start: int
    texts: list[str]


def completed(desk: Desk, line: str) -> Completed:
    """Return the words that can complete a line: those that begin like its last word, without
    regard to case and accents."""
    words = split(line)
    if (
        not words
        or words[-1].start + len(words[-1].text) < len(line)
        and not words[-1].is_open
        and line[-1] in " \t"
    ):
        words.append(Word("", len(line)))
    *before, last = words
    begun = folded(last.text)
    found = dict.fromkeys(
        name
        for name in _candidates(desk, [word.text for word in before])
        if folded(name).startswith(begun)
    )
    return Completed(last.start, sorted(f"{typed_form(name, last.is_open)} " for name in found))


def _candidates(desk: Desk, before: list[str]) -> Iterator[str]:
    """Yield the words that may stand after these."""
    network = desk.network
    names = network.names
    if before[:1] == ["what-if"]:
        if len(before) == 1:
            yield from ("each", *CHANGES)
            return
        if before[1] == "each":
            yield from {2: ["arc"], 3: ["of", "at"]}.get(
                len(before), names.places if before[3:4] == ["at"] else ["the", "cut"]
            )
            return
        before = before[1:]
    takes = COMMANDS[before[0]].takes if before and before[0] in COMMANDS else ""
    if takes == SCENARIO:
        yield from _scenario_words(desk, before)
        return
    if not before or takes == COMMAND and len(before) == 1:
        yield from COMMANDS
    elif before[0] == "add":
        # The name of a new place cannot be completed.
        if before[-1] != NEW and len(before) - before.count(NEW) <= 2:
            yield from (*names.places, NEW)
    elif takes == PLACE and len(before) == 1:
        yield from names.places
    elif takes == WORST and len(before) == 1:
        yield from (PLACES, PAIRS)
    elif takes == LOSS and len(before) > 1 and before[-1] == AND:
        yield from (names.called(number) for number, _ in network.opened())
    elif takes in (ARC, FLOW, LOSS) and len(before) == 1:
        yield from (
            names.called(n)
            for n, line in enumerate(network.lines, 1)
            if not line.is_closed or takes == FLOW
        )
        if takes != ARC:
            yield from names.places
    elif takes == CLOSED and len(before) == 1:
        yield from (
            names.called(n)
            for n, line in enumerate(network.lines, 1)
            if line.is_closed and not line.is_replaced
        )
        yield from (names.node(node) for node in sorted(network.shut_nodes))


def _scenario_words(desk: Desk, before: list[str]) -> Iterator[str]:
    """Yield the words that may stand after these, which begin a command about scenarios."""
    if before == ["scenario"]:
        yield from ("new", "go", "copy", "name", "delete", "note")
    elif (project := Scenarios.of(desk)) and (
        before[0] == "compare" or before[1] in ("go", "delete") or before[-1] == "from"
    ):
        yield from (it.name for it in project.project.scenarios)
        yield from [BASE] * (before[1:2] not in (["go"], ["delete"]))
    elif before[1:2] == ["new"] and len(before) == 3:
        yield "from"
