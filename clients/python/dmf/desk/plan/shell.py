"""A planner's session at a terminal, or in a script: commands by names."""

from __future__ import annotations

import contextlib
import sys
from collections.abc import Callable, Iterable, Iterator

from ...errors import Error, FileFault
from ...quantity import plain_text
from ...text.lexical import display
from ...text.spelling import quoted_name
from ..steps import DeskFault, unforeseen
from ..workspace import Desk
from .context import Context, Keep, Output
from .grammar import ALWAYS, Completed, Word, completed, quoted, split
from .handlers import HANDLERS, command_named
from .output import TextOutput, value_line
from .prompt import asking, confirming, show


class Shell:
    """A planner's session at a terminal or in a script.

    Parameters
    ----------
    desk
        The desk that the commands are about.
    is_typed
        Whether a person types, who sees a prompt and may complete names; else the lines are a
        script's.
    write
        Writes a part of the answers.
    keep
        Makes a project of the desk in the file of a path.
    offer
        The name that is offered for a project.
    output
        The form of the answers: `TextOutput` or `JsonOutput`.
    """

    def __init__(
        self,
        desk: Desk,
        *,
        is_typed: bool,
        write: Callable[[str], None],
        keep: Keep | None = None,
        offer: str = "",
        output: type[Output] = TextOutput,
    ) -> None:
        self.is_typed = is_typed
        self.output = output(write)
        self.refused = 0
        self._offer = offer
        self._context = Context(desk, self.output, is_typed, keep)

    @property
    def desk(self) -> Desk:
        """Return the desk, which is another one after the steps were kept in a project."""
        return self._context.desk

    # Input and answers.

    def onecmd(self, line: str) -> bool:
        """Carry out a line. Return True if the session should end."""
        self.output.line_number += 1
        words = split(line.rstrip("\r\n"))
        if not words or words[0].text.startswith("#") or words[0].text == "c":
            return False
        return bool(self._guarded(lambda: self._carry_out(words)))

    def _carry_out(self, words: list[Word]) -> object:
        if words[-1].is_open:
            raise DeskFault('a quote (") is not closed')
        carry_out = HANDLERS[command_named(words[0].text)]
        if self.desk.has_ended and words[0].text not in ALWAYS:
            self.begin_again()
            if self.desk.has_ended:
                return None
        with self._shown_at_once():
            made = carry_out(self._context, [word.text for word in words[1:]])
            if news := self.desk.take_news():
                self.output.tell(*news)
        return made

    @contextlib.contextmanager
    def _shown_at_once(self) -> Iterator[None]:
        """Show a person what the block tells as one answer, which may be long. To a script each
        line goes at once."""
        if not self.is_typed:
            yield
            return
        # For a person, capitals and accents in names do not matter.
        self.desk.state.network.names.is_any_case = True
        write, told = self.output.write, list[str]()
        self.output.write = told.append
        try:
            yield
        finally:
            self.output.write = write
            if told:
                show("".join(told), write)

    def _guarded(self, do: Callable[[], object]) -> object:
        """Return what a call returns, or None if it raises. What goes wrong in it is told, and the
        steps before it are kept, on a new session if its own has ended."""
        try:
            return do()
        except FileFault:
            # Nothing more can be printed.
            raise
        except KeyboardInterrupt:
            self.output.tell("")
            self.refuse("broken off")
        except Exception as error:
            self.refuse(unforeseen(error))
        if self.desk.has_ended:
            self.begin_again()
        return None

    def refuse(self, why: str) -> None:
        """Print why a line is refused. Nothing has changed."""
        self.output.refusal(why)
        self.refused += 1
        where = "" if self.is_typed else f"dmf-plan: line {self.output.line_number}: "
        if sys.stderr:
            with contextlib.suppress(OSError):
                sys.stderr.write(display(where + why) + "\n")
                sys.stderr.flush()

    def begin_again(self) -> None:
        """Begin a new session, with the steps that were made."""
        if self.is_typed:
            self.output.tell("a new session begins, with the steps that were made ..")
        try:
            self.desk.begin_again()
            self.output.tell(f"begun again, with the steps that were made: {value_line(self.desk)}")
        except FileFault:
            raise
        except (Exception, KeyboardInterrupt) as error:
            why = "broken off" if isinstance(error, KeyboardInterrupt) else unforeseen(error)
            self.refuse(
                f"it could not be begun again: {why}; the next command tries once more, and `save "
                "FILE.max` keeps what was done"
            )

    def run_typed(self) -> None:
        """Take lines from a person, to the end."""
        offer = (
            f"`keep {quoted(display(self._offer))}` keeps what you do in a project, to go on "
            "another day."
        )
        self.output.tell(
            self.greeting(), "`help` lists the commands, `quit` ends.", *[offer] * bool(self._offer)
        )
        if not self.desk.steps and self._guarded(self.desk.solve):
            self.output.tell(value_line(self.desk))
        with asking(self.completed) as ask:
            self._context.confirm = confirming(ask)
            while True:
                try:
                    # Several lines may be pasted at once.
                    if any(map(self.onecmd, ask(self._prompt()).splitlines())):
                        return
                except EOFError:
                    return
                except KeyboardInterrupt:
                    self.output.tell("")
                except UnicodeDecodeError:
                    self.refuse("that line is not UTF-8")

    def completed(self, line: str) -> Completed:
        """Return the possible completions of a line."""
        with contextlib.suppress(Error, DeskFault):
            return completed(self.desk, line)
        return Completed(len(line), [])

    def run_script(self, lines: Iterable[str]) -> None:
        """Carry out the lines of a script."""
        for line in lines:
            if self.onecmd(line):
                return

    def greeting(self) -> str:
        network, name = self.desk.network, self.desk.state.scenario
        words = network.words
        source, sink = map(network.names.terminal, (network.source, network.sink))
        places = len(network.folding.places(range(1, network.names.node_count + 1)))
        scenario = (
            f" What is done is kept in it; the scenario is {quoted_name(name)}." if name else ""
        )
        return (
            f"{display(network.subject.path)}: from {source} to {sink}, "
            f"{len(network.pictured())} {words.noun}s between {places} {words.places}.{scenario}"
        )

    def _prompt(self) -> str:
        return str(self._guarded(self._told_state) or f"{plain_text(self.desk.value)}> ")

    def _told_state(self) -> str:
        desk = self.desk
        state = "ended" if desk.has_ended else "greatest" if desk.is_greatest else "not greatest"
        name = f"{display(desk.state.scenario)}: " * bool(desk.state.scenario)
        return f"{name}{'try, ' * desk.trials}{plain_text(desk.value)}, {state}> "
