"""Compares what the completions of a shell offer, once installed, with what the help of each
command lists. Each case types a line and asks what is offered there."""

from __future__ import annotations

import os
import pty
import re
import select
import shlex
import subprocess
import time
from collections.abc import Callable, Iterator
from pathlib import Path
from typing import Set, Tuple

import pytest
from conftest import ROOT
from dmf.tools import TOOLS as DMF_TOOLS
from limits import SECONDS

PROBLEM = "an odd.max"
TABLES = ROOT / "clients/python/dmf/tools/tables.txt"
# What a shell is told before it is typed to: a listing is shown at once, and whole. What zsh has
# found once stands in a file.
PREPARE = {
    "bash": "bind 'set show-all-if-ambiguous on' 'set completion-query-items 0' 'set "
    "enable-bracketed-paste off'; source {file}",
    "zsh": "fpath=({folder} $fpath); autoload -U compinit; compinit -u -d {folder}/found; "
    "LISTMAX=0; "
    "setopt no_auto_menu",
}
# A line that is typed, with the words that are to be offered at its end, and those that are not.
Offer = Tuple[str, Set[str], Set[str]]
PLAIN = {"bash": ["bash", "--norc", "--noprofile", "-i"], "zsh": ["zsh", "-f", "-i"]}


def help_of(*command: str, program: str = "dmf") -> str:
    return subprocess.run(
        [program, *command, "--help"], capture_output=True, text=True, timeout=SECONDS, check=True
    ).stdout


def listed(title: str, text: str) -> list[str]:
    """What stands in the first column of a section of a help."""
    section = re.search(rf"^{title}:\n((?:  .*\n)*)", text, re.MULTILINE)
    return (
        [re.split(r"\s{2,}", line.strip())[0] for line in section[1].splitlines()]
        if section
        else []
    )


def options_of(text: str) -> dict[str, bool]:
    """Each option, and whether it takes a value."""
    return {
        name: "<" in entry
        for entry in listed("Options", text)
        for name in re.findall(r"--?\w[-\w]*", entry)
    }


def cases() -> Iterator[Offer]:
    """Each line that is typed, with the words that are to be offered at its end, and those that are
    not."""
    whole = help_of()
    commands, tools = set(listed("Commands", whole)), set(listed("Tools", whole))
    texts = {command: help_of(command) for command in commands - {"help"}}
    assert {"solve", "session", "check", "vital", "help"} <= commands and "--cut" in options_of(
        texts["session"]
    )
    assert tools == {*DMF_TOOLS}
    words = commands | tools
    begun = {it for it in words if it.startswith("s")}
    yield "dmf ", words, {PROBLEM}
    yield "dmf s", begun, words - begun
    yield "dmf -", set(options_of(whole)), words | {"--cut"}
    yield "dmf help ", words - {"help"} | {"tables"}, {PROBLEM}
    yield "dmf solve < a", {PROBLEM}, set()
    for command, text in texts.items():
        options = options_of(text)
        yield f"dmf {command} -", set(options), commands | {"--version"} - set(options)
        yield f"dmf {command} --", {it for it in options if it.startswith("--")}, commands | {
            PROBLEM
        }
        wants_file = bool(listed("Arguments", text))
        offered, other = ({PROBLEM}, set()) if wants_file else (set(), {PROBLEM})
        yield f"dmf {command} a", offered, other | commands
        yield f"dmf {command} one.max a", set(), {PROBLEM}
        for option, has_value in options.items():
            if option.startswith("--"):
                yield (f"dmf {command} {option} a", set(), {PROBLEM}) if has_value else (
                    f"dmf {command} {option} a",
                    offered,
                    other,
                )
            if has_value:
                yield f"dmf {command} {option} 7 a", offered, other


def file_offer(line: str, is_file: bool) -> Offer:
    """At the end of a line a file is to be offered, or not."""
    return (line, {PROBLEM}, set()) if is_file else (line, set(), {PROBLEM})


def tool_cases(tool: str) -> Iterator[Offer]:
    """The same for a tool, by what argparse lists, and by the text on tables."""
    program, *word = tool.split()
    text = help_of(*word, program=program)
    options = {
        name: entry.partition(name)[2].partition(",")[0].strip()
        for entry in [*listed("options", text), *listed("options", TABLES.read_text())]
        for name in re.findall(r"(?<!\w)--?[a-z][-a-z]*", entry)
    }
    assert {"--help", "--node-limits"} <= options.keys()
    yield f"{tool} -", set(options), {PROBLEM}
    yield f"{tool} --h", {it for it in options if it.startswith("--h")}, {PROBLEM}
    yield f"{tool} < a", {PROBLEM}, set()
    with_value = next(option for option, value in options.items() if value)
    yield f"{tool} {with_value} 7 -", {"--help"}, {PROBLEM}
    takes_files = any(
        it.split()[0] in ("PROBLEM", "FILE") for it in listed("positional arguments", text)
    )
    yield file_offer(f"{tool} a", takes_files)
    for option, value in options.items():
        if value:
            yield file_offer(f"{tool} {option} a", value == "FILE")


class Terminal:
    """A shell that is typed to, and what it shows."""

    def __init__(self, words: list[str]) -> None:
        self.child, self.file = pty.fork()
        if self.child == 0:
            os.environ.update(TERM="dumb", COLUMNS="200", LINES="50")
            os.execvp(words[0], words)
        self.shown = ""

    def type(self, text: str) -> None:
        self.shown = ""
        os.write(self.file, text.encode())

    def wait(self, is_enough: Callable[[str], bool], seconds: float = SECONDS) -> None:
        """Reads what is shown until it is enough, or so many seconds are over."""
        end = time.monotonic() + seconds
        while not is_enough(self.shown) and time.monotonic() < end:
            if select.select([self.file], [], [], 0.05)[0]:
                self.shown += os.read(self.file, 65536).decode(errors="replace")

    def end(self) -> None:
        os.close(self.file)
        os.waitpid(self.child, 0)


def words_shown(shown: str, line: str) -> set[str]:
    """The words that a terminal shows beside the line that was typed: of each line those before a
    description."""
    text = shown.replace("\\", "").replace("\a", "")
    words = {
        word
        for shown_line in text.splitlines()
        for word in re.split(r"\s+-- ", shown_line)[0].split()
    }
    return words - set(line.split()) | ({PROBLEM} if PROBLEM in text else set())


def offered_at_terminal(shell: str, file: str, line: str, wanted: set[str]) -> set[str]:
    """What is offered where a line is typed, and tab twice: but once where its last word begins one
    word alone, since that is then completed, and the second tab would ask for the next word."""
    terminal = Terminal(PLAIN[shell])
    prepare = PREPARE[shell].format(
        file=shlex.quote(file), folder=shlex.quote(os.path.dirname(file))
    )
    terminal.type(f"{prepare}; PS1=; echo rea''dy\n")
    terminal.wait(lambda shown: "ready\r\n" in shown)
    is_completed = len(wanted) == 1 and line.rpartition(" ")[2] not in ("", "-")
    terminal.type(f"{line}\t" if is_completed else f"{line}\t\t")
    if wanted:
        terminal.wait(lambda shown: wanted <= words_shown(shown, line))
    else:
        # Where nothing is offered, each tab rings the bell; zsh rings it after what it offers, too.
        terminal.wait(lambda shown: shown.count("\a") >= 2, 30)
    terminal.end()
    return words_shown(terminal.shown, line)


def offered_by_fish(file: str, line: str) -> set[str]:
    command = f"source {shlex.quote(file)}; complete -C {shlex.quote(line)}"
    ran = subprocess.run(
        ["fish", "--no-config", "-c", command], capture_output=True, text=True, timeout=SECONDS
    )
    return {offer.split("\t")[0] for offer in ran.stdout.splitlines()}


# A tool is called by its own name, and by the word of it.
COMMANDS = ["dmf", *(f"dmf-{tool}" for tool in DMF_TOOLS), "dmf plan", "dmf problem"]
FILES = {
    "bash": "share/bash-completion/completions/{program}",
    "zsh": "share/zsh/site-functions/_dmf",
    "fish": "share/fish/vendor_completions.d/{program}.fish",
}


@pytest.mark.seconds(6)
@pytest.mark.parametrize("tool", COMMANDS)
@pytest.mark.parametrize("shell", FILES)
def test_offered(
    installed: Path, tmp_path: Path, monkeypatch: pytest.MonkeyPatch, shell: str, tool: str
) -> None:
    file = str(installed / FILES[shell].format(program=tool.split()[0]))
    (tmp_path / "first").mkdir()
    monkeypatch.setenv("PATH", f"{tmp_path / 'first'}:{installed / 'bin'}:{os.environ['PATH']}")
    monkeypatch.chdir(tmp_path)
    for name in PROBLEM, "one.max":
        (tmp_path / name).touch()
    for line, wanted, others in [*cases()] if tool == "dmf" else [*tool_cases(tool)]:
        offered = (
            offered_by_fish(file, line)
            if shell == "fish"
            else offered_at_terminal(shell, file, line, wanted)
        )
        assert (wanted - offered, others & offered) == (set(), set()), line
        if tool.startswith("dmf-"):
            put_stand_in(tmp_path / "first" / tool, tool)


def put_stand_in(path: Path, tool: str) -> None:
    """Puts a program there that has a tool's help alone, which completions ask for at each tab:
    Python takes longer to begin."""
    if not path.exists():
        path.write_text(f"#!/bin/sh\ncat <<'END'\n{help_of(program=tool)}END\n")
        path.chmod(0o755)
