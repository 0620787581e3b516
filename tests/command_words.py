"""The commands in the help and at a terminal: the sources of two crates, made of the table in
commands.py."""

from __future__ import annotations

from command_pages import put
from commands import (
    COMMANDS,
    HELP_OF_PRINTED,
    LISTED,
    LISTED_PRINTS,
    NOTE,
    PRINTED,
    Command,
    either,
)

# What the help calls the fields of a command. A node is FROM where the command has another one, and
# else NODE.
HELP_NAMES = {"I": "ARC", "U": "CAP", "V": "FROM", "W": "TO"}
# What a field's number stands for in explanations: something that may have a name, or a number
# alone.
THINGS = {"I": "Some(Thing::Arc)", "V": "Some(Thing::Node)", "W": "Some(Thing::Node)"}
HELP_HEAD = '    notes: "Commands, one a line on standard input, each with its reply:\n'


def help_name(field: str, command: Command) -> str:
    if field == "V" and "W" not in command.fields:
        return "NODE"
    return HELP_NAMES.get(field, field)


def help_row(form: str, does: str, reply: str) -> str:
    return f"  {form:<16} {does:<35} {reply}\n"


def help_text(old: str) -> str:
    """The texts of the help, with its list of commands."""
    rows = ""
    for it in COMMANDS.values():
        if it.word != "print":
            form = " ".join([it.word, *(help_name(field, it) for field in it.fields)])
            rows += help_row(form, it.helps, it.help_reply or it.reply.replace(" I ", " ARC "))
    for what in PRINTED:
        rows += help_row(f"print {what}", *HELP_OF_PRINTED[what])
    return put(old, HELP_HEAD, rows, "\n")


def takes_text(command: Command) -> str:
    """Which fields a command takes, and how many with its word."""
    counts = [count + 1 for count in sorted(command.counts())]
    form = f"{command.form}, " if command.fields and command.word != "print" else ""
    return (
        f"{command.word} takes {command.takes} ({form}{' or '.join(map(str, counts))} "
        f"field{'s' * (counts != [1])})"
    )


def terminal_text(old: str) -> str:
    """The commands of crates/dmf_terminal, in place of the old text."""
    rows = ""
    for it in COMMANDS.values():
        numbers = ", ".join(THINGS.get(field, "None") for field in it.fields if field != "WHAT")
        rows += (
            f'    CommandForm {{ word: b"{it.word}", numbers: &[{numbers}], takes: '
            f'"{takes_text(it)}" }},\n'
        )
    listed = f"{', '.join(LISTED)} and {', '.join(LISTED_PRINTS)}"
    return (
        "//! The commands, as explanations speak of them.\nuse dmf_explain::Thing;\n\n"
        f"{NOTE}/// A command: its word, what each of its numbers stands for that may have a name, "
        "and the fields that it takes.\n"
        "pub struct CommandForm {\n    pub word: &'static [u8],\n    pub numbers: &'static "
        "[Option<Thing>],\n    pub takes: &'static str,\n}\n\n"
        f"#[rattlefmt::skip]\npub const COMMANDS: &[CommandForm] = &[\n{rows}];\n\n"
        "/// The forms of all of them.\n#[rattlefmt::skip]\n"
        f'pub const LISTED: &str = "the commands are {listed}; Ctrl-D ends the session";\n\n'
        "/// What is said of a thing that is not printed.\n#[rattlefmt::skip]\n"
        f'pub const NOT_PRINTED: &str = " is not printed: {either(LISTED_PRINTS)}";\n'
    )


# What makes each of these sources, of the text that stands there.
WORDS = {
    "crates/dmf_arguments/src/help.rt": help_text,
    "crates/dmf_terminal/src/commands.rt": terminal_text,
}
