"""Compares the table of commands with what else lists commands: the files and pages that it makes,
the second implementation, the help, what a terminal is told, the client and its tools; and tries
each row."""

from __future__ import annotations

import re
import subprocess

import pytest
from command_pages import PAGES
from command_words import WORDS
from commands import COMMANDS, GENERATED, LISTED, LISTED_PRINTS, OF_FORM, PRINTED, REFUSALS, Command
from conftest import BUILT, ROOT
from dmf import Network, errors
from dmf.text import session_commands as client
from oracle import session
from oracle.network import Arc, State
from oracle.session import Session, SolveReply, command_of

MAKERS = {**GENERATED, **PAGES, **WORDS}
STATE = State(
    4, 1, 4, (Arc(1, 2, 3), Arc(1, 3, 2), Arc(2, 3, 5), Arc(2, 4, 2), Arc(3, 4, 3)), (0,) * 5
)
COUNTS = {it.word: it.counts() for it in COMMANDS.values()}
CHANGES = {it.word for it in COMMANDS.values() if it.changes}
rows = pytest.mark.parametrize(
    "command", [pytest.param(it, id=word) for word, it in COMMANDS.items()]
)


def told_forms(field: str) -> list[str]:
    """The ways in which the documents write the line of a command: `undo [K]` is `undo` and `undo
    K`."""
    return [field.replace(" [K]", ""), field.replace("[K]", "K")] if "[K]" in field else [field]


def test_second_implementation() -> None:
    assert [*session.NUMBERED] == [told for form in LISTED for told in told_forms(form)]
    assert [*session.PRINTS] == LISTED_PRINTS
    assert set(session.CHANGES) == CHANGES


def test_client() -> None:
    """The client, and so dmf-names and dmf-dot, which follow a session by it."""
    assert {word.decode(): set(counts) for word, counts in client.FIELD_COUNTS.items()} == COUNTS
    assert {it.decode() for it in client.PRINTED} == set(PRINTED)
    told_by_value = {it.word for it in COMMANDS.values() if it.reply.startswith("c ")}
    assert {it.decode() for it in client.CHANGES} == told_by_value


# What the help calls the fields of a command.
HELP_NAMES = {"ARC": "I", "CAP": "U", "FROM": "V", "TO": "W", "NODE": "V"}


def test_help() -> None:
    """The help lists these lines with their replies. What a terminal lists where a line is no
    command is tried by program/test_terminal.py."""
    told = subprocess.run([BUILT, "session", "--help"], capture_output=True, text=True).stdout
    section = told.partition("\nCommands, one a line on standard input, each with its reply:\n")[
        2
    ].partition("\n\n")[0]
    found = [re.split("  +", line.strip()) for line in section.splitlines()]
    lines = [" ".join(HELP_NAMES.get(field, field) for field in line.split()) for line, *_ in found]
    assert lines == [*LISTED, *LISTED_PRINTS]
    replies_told = [reply.replace(" ARC", " I") for _, _, reply in found]
    assert all(told.startswith(it.reply) for told, it in zip(replies_told, COMMANDS.values()))


def test_refusals() -> None:
    assert {*OF_FORM, *(text for it in COMMANDS.values() for text in it.refusals), "no memory"} == {
        *REFUSALS
    }


def test_errors() -> None:
    """The client has an error for each refusal."""
    assert {text for it in COMMANDS.values() for text in it.refusals} <= {*errors.Refused.kinds}


@pytest.mark.parametrize("path", MAKERS)
def test_generated(writes: bool, path: str) -> None:
    """The files that the table makes."""
    file = ROOT / path
    made = MAKERS[path](file.read_text() if file.exists() else "")
    if writes:
        file.write_text(made)
    assert file.read_text() == made, "--write rewrites it"


@rows
def test_row(command: Command) -> None:
    """The example is accepted on a solved network, its reply has the form, and it changes the
    network where the table says so."""
    held = Session(STATE, SolveReply())
    held.reply("solve")
    held.reply("cap", 2, 2)
    if command.word == "redo":
        held.reply("undo", 1)
    count, asked = len(held.states), command_of(command.example.encode(), True)
    assert asked and asked[0] == command.word
    assert not held.may_want_memory(*asked) or command.may_want_memory
    reply = held.reply(*asked).decode()
    assert not command.reply or command.matches(reply), reply
    assert (len(held.states) > count) == command.changes


@rows
def test_counts(command: Command) -> None:
    """With a field too few or too many the program refuses a line."""
    lines = [" ".join([command.word, *["1"] * count]) for count in command.wrong_counts()]
    ran = subprocess.run(
        [BUILT, "session", "examples/a.max"], input="\n".join(lines), capture_output=True, text=True
    )
    assert ran.stdout == "".join(
        f"c refused {at} wrong number of fields\n" for at in range(1, len(lines) + 1)
    )


@rows
def test_method(command: Command) -> None:
    """The client has a call for it."""
    names = {"print": "cut"}
    assert hasattr(Network, names.get(command.word, command.word))
