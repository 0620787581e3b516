"""The lists of commands and refusals on pages, made of the table in commands.py: in docs/SESSION.md
and in the manual page."""

from __future__ import annotations

import re
from collections.abc import Iterable

from commands import COMMANDS, MADE, PRINTED, REFUSALS, Command

# What stands for a number or a text on the pages.
NAMES = re.compile(r"\b(?:I|V|W|U|K|VALUE)\b")
BEGIN = f'.\\" tests/commands.py has these entries: {MADE} them.\n'
END = '.\\" Here they end.\n'


def listed(words: Iterable[str], last: str) -> str:
    *front, end = [f"`{word}`" for word in words]
    return f"{', '.join(front)} {last} {end}" if front else end


def when(refusal: str) -> str:
    """When a refusal comes, with the commands that have it."""
    words = [it.word for it in COMMANDS.values() if refusal in it.refusals]
    return REFUSALS[refusal].format(listed(words, "or") if words else "")


def forms(command: Command) -> list[str]:
    """The ways to write a line of it."""
    if "[K]" not in command.fields:
        return [command.form]
    return [command.word, command.form.replace("[K]", "K")]


def put(page: str, begin: str, text: str, end: str) -> str:
    """A page with a text after the begin, up to the first line that is the end."""
    front, found, rest = page.partition(begin)
    _, ended, after = f"\n{rest}".partition(f"\n{end}")
    assert found and ended, f"the page has not {begin!r} with {end!r} after it"
    return f"{front}{begin}{text}{end}{after}"


def session_text(old: str) -> str:
    """docs/SESSION.md with its tables of commands and of refusals."""
    rows = [
        (", ".join(f"`{form}`" for form in forms(it)), it.does, it.told or f"`{it.reply}`")
        for it in COMMANDS.values()
        if it.word != "print"
    ]
    rows += [(f"`print {what}`", "", told) for what, told in PRINTED.items()]
    told = "".join(
        f"| {line} | {does}{' ' * (does != '')}| {reply} |\n" for line, does, reply in rows
    )
    old = put(old, "| Line | What | Reply |\n|---|---|---|\n", told, "\n")
    return put(
        old,
        "| TEXT | When |\n|---|---|\n",
        "".join(f"| {text} | {when(text)} |\n" for text in REFUSALS),
        "\n",
    )


def roff(text: str) -> str:
    """A text as the manual page has it: a sentence a line, what is in backquotes bold, and names
    italic."""

    def in_italics(part: str, font: str) -> str:
        return NAMES.sub(
            lambda name: rf"\fI{name[0]}\f{font}", part.replace("-", r"\-") if font == "B" else part
        )

    parts = re.split("`(.*?)`", re.sub(r"(?<=[.]) (?=[A-Z`])", "\n", text))
    return "".join(
        rf"\fB{in_italics(part, 'B')}\fR" if at % 2 else in_italics(part, "R")
        for at, part in enumerate(parts)
    )


def sentence(text: str) -> str:
    return f"{text[0].upper()}{text[1:]}."


def entry(line: str, text: str, head: str = ".TP") -> str:
    return f"{head}\n{roff(line)}\n{roff(text)}\n"


def manual_text(old: str) -> str:
    """The manual page with its entries of commands and of refusals."""
    entries = ""
    for it in COMMANDS.values():
        if it.word != "print":
            fields = "".join(f" {field}" for field in it.fields)
            told = [sentence(it.does), it.manual, f"Reply: {it.told or f'`{it.reply}`'}."]
            entries += entry(f"`{it.word}`{fields}", " ".join(filter(None, told)))
    for what, printed in PRINTED.items():
        entries += entry(
            f"`print {what}`", f"Reply: {printed}.", ".TQ" if what != [*PRINTED][0] else ".TP"
        )
    changes = listed((it.word for it in COMMANDS.values() if it.changes), "and")
    entries += f".P\n{roff(changes)} are changes, even if they leave all as it is.\n"
    refusals = "".join(entry(f"`{text}`", sentence(when(text))) for text in REFUSALS)
    front, part, rest = old.partition(".SS Refused commands\n")
    return put(front, BEGIN, entries, END) + part + put(rest, BEGIN, refusals, END)


# What makes each page that has the commands, of the text that stands there.
PAGES = {"docs/SESSION.md": session_text, "docs/dmf.1": manual_text}
