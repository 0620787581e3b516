"""How a person types the lines of dmf-plan, and sees its answers: by prompt-toolkit where that is
installed and the terminal can move its cursor, else by readline; a long answer by a pager. Typed
lines are kept in a file, from one session to the next."""

from __future__ import annotations

import contextlib
import os
import pydoc
import shutil
import sys
from collections.abc import Callable, Iterable, Iterator
from pathlib import Path
from typing import Any

from .grammar import Completed

try:
    import readline
except ImportError:  # A Python without it has no completion and no history.
    readline = None  # type: ignore[assignment]

MOST_REMEMBERED = 2_000
# A function that completes a line, and one that asks for a line after a prompt. The second raises
# an EOFError at Ctrl-D, a KeyboardInterrupt at Ctrl-C, and a UnicodeDecodeError for bytes that are
# not text.
Complete = Callable[[str], Completed]
Ask = Callable[[str], str]


def _history() -> Path:
    """Return the file of the typed lines."""
    state = os.environ.get("XDG_STATE_HOME", "")
    return (
        Path(state if os.path.isabs(state) else os.path.expanduser("~/.local/state"))
        / "dmf"
        / "plan_history"
    )


def _is_dumb() -> bool:
    """Return True if standard output is not a terminal that can move its cursor."""
    return (
        os.environ.get("TERM", "dumb") in ("", "dumb", "unknown")
        or not sys.stdout
        or not sys.stdout.isatty()
    )


@contextlib.contextmanager
def asking(complete: Complete) -> Iterator[Ask]:
    """Yield a function that asks a person for a line, for the block."""
    with contextlib.ExitStack() as until:
        if not _is_dumb():
            with contextlib.suppress(ImportError):
                yield until.enter_context(_by_prompt_toolkit(complete))
                return
        yield until.enter_context(_by_readline(complete))


def confirming(ask: Ask) -> Callable[[str], bool]:
    """Return a function that asks a question once, and returns True if the answer is yes."""

    def confirm(question: str) -> bool:
        with contextlib.suppress(EOFError):
            return ask(question).strip().casefold() in ("y", "yes")
        return False

    return confirm


@contextlib.contextmanager
def _by_prompt_toolkit(complete: Complete) -> Iterator[Ask]:
    from prompt_toolkit import PromptSession
    from prompt_toolkit.completion import CompleteEvent, Completer, Completion
    from prompt_toolkit.document import Document
    from prompt_toolkit.history import InMemoryHistory
    from prompt_toolkit.key_binding import KeyBindings, KeyPressEvent

    class Names(Completer):
        def get_completions(
            self, document: Document, complete_event: CompleteEvent
        ) -> Iterable[Completion]:
            line = document.text_before_cursor
            found = complete(line)
            return (
                Completion(text, found.start - len(line), display=text.rstrip())
                for text in found.texts
            )

    file = _history()
    before: list[str] = []
    with contextlib.suppress(OSError):
        before = file.read_text(errors="replace").splitlines()[-MOST_REMEMBERED:]
    history = InMemoryHistory(before)
    keys = KeyBindings()

    @keys.add("tab")
    def press_tab(event: KeyPressEvent) -> None:
        """Write what all matches have in common, and show them if that is no more than was typed.
        An Enter that follows finds it."""
        buffer = event.current_buffer
        if buffer.complete_state:
            buffer.complete_next()
            return
        line = buffer.document.text_before_cursor
        found = complete(line)
        common = os.path.commonprefix(found.texts)
        if len(found.texts) == 1 or len(common) > len(line) - found.start:
            buffer.delete_before_cursor(len(line) - found.start)
            buffer.insert_text(common)
        elif found.texts:
            buffer.start_completion()

    session: Any = PromptSession(
        history=history, completer=Names(), complete_while_typing=False, key_bindings=keys
    )

    def ask(prompt: str) -> str:
        line = str(session.prompt(prompt))
        line.encode()
        return line

    def judged(prompt: str) -> str:
        try:
            return ask(prompt)
        except UnicodeEncodeError as fault:
            # Bytes that are not text stand for themselves.
            raise UnicodeDecodeError("utf-8", b"", fault.start, fault.end, "no text") from None

    try:
        yield judged
    finally:
        with contextlib.suppress(OSError):
            file.parent.mkdir(mode=0o700, parents=True, exist_ok=True)
            lines = [line for line in history.get_strings() if "\n" not in line]
            file.write_text(
                "".join(f"{line}\n" for line in lines[-MOST_REMEMBERED:]), errors="replace"
            )


@contextlib.contextmanager
def _by_readline(complete: Complete) -> Iterator[Ask]:
    def ask(prompt: str) -> str:
        try:
            return input(prompt)
        except EOFError:
            # What is told next begins a line.
            print()
            raise

    if readline is None:
        yield ask
        return
    readline.set_completer(_Matches(complete))
    readline.set_completer_delims(" \t")
    readline.parse_and_bind("tab: complete")
    readline.set_history_length(MOST_REMEMBERED)
    file = _history()
    with contextlib.suppress(OSError):
        readline.read_history_file(file)
    try:
        yield ask
    finally:
        with contextlib.suppress(OSError):
            file.parent.mkdir(mode=0o700, parents=True, exist_ok=True)
            readline.write_history_file(file)


class _Matches:
    """The matches of the word before the cursor, as readline asks for them: one after the other."""

    def __init__(self, complete: Complete) -> None:
        self._complete = complete
        self._found: list[str] = []

    def __call__(self, text: str, state: int) -> str | None:
        if state == 0:
            line = readline.get_line_buffer()[: readline.get_endidx()]
            found = self._complete(line)
            # The part of the word before `text` stays, since readline replaces `text` alone.
            typed = len(line) - len(text) - found.start
            self._found = [whole[typed:] for whole in found.texts]
        return self._found[state] if state < len(self._found) else None


def show(text: str, write: Callable[[str], None]) -> None:
    """Show an answer: by the pager, if it is longer than the terminal."""
    if _is_dumb() or text.count("\n") < shutil.get_terminal_size().lines:
        write(text)
    else:
        sys.stdout.flush()
        pydoc.pager(text)
