"""The program as a child of this process: how it begins, the lines that are sent to it and read
from it, and how it ends."""

from __future__ import annotations

import contextlib
import os
import re
import subprocess
from collections.abc import Callable, Iterable, Iterator, Sequence
from itertools import chain
from typing import IO, Any

from .. import running
from ..errors import Error, Refused, SessionEnded
from ..files import passed_on, scratch
from ..history import Command
from ..text.lexical import display
from . import executable
from .base import (
    MOST_KEPT,
    MOST_TEXT,
    FilePath,
    Session,
    case_lines,
    command_line,
    judged,
    refused,
    refused_line,
)

# How long a program that is no longer needed may take to end by itself once its input has ended, in
# seconds. Then it is killed, and nothing is lost.
SECONDS = 2
# How much of the program's standard error is shown, in bytes.
MOST_TOLD = 1 << 16
# How much of an answer is read at once, in bytes.
PIECE = 1 << 20
Begun = Callable[["subprocess.Popen[bytes]"], object]
_TOLD = re.compile(r"dmf: (?:line ([0-9]{1,10}): )?(.*)")


class ProgramSession(Session):
    """A running session of the program, and the lines that are sent to it and read from it."""

    def __init__(self, words: list[str | bytes], path: str) -> None:
        """Start a program with these words, on a problem at this path. Raises an OSError if it
        cannot be started."""
        pipe = subprocess.PIPE
        # A file holds all that the program writes to standard error, so that nobody has to read it
        # meanwhile.
        self._told = scratch()
        try:
            # In a session of its own, since Ctrl-C at a terminal is meant for the caller alone.
            self.process = subprocess.Popen(
                [*words, "--", path],
                stdin=pipe,
                stdout=pipe,
                stderr=self._told,
                bufsize=1 << 16,
                start_new_session=True,
                pass_fds=passed_on(path),
            )
        except BaseException:
            self._told.close()
            raise
        running.note(self.process)
        super().__init__(_end, self.process, self._told, os.getpid())
        assert self.process.stdin and self.process.stdout
        self._input, self._output = self.process.stdin, self.process.stdout.fileno()
        # What was read beyond the last line that was asked for.
        self._rest = b""

    @contextlib.contextmanager
    def exchange(self, lines: str) -> Iterator[None]:
        """Send lines, and let the caller read the answer. An exception meanwhile ends the session,
        since the rest of the answer would be read as the answer to the next command."""
        if not self.end.alive:
            raise self.ended()
        try:
            self.asked_count += 1 + lines.count("\n")
            self._input.write(lines.encode() + b"\n")
            self._input.flush()
            yield
        except Refused:
            raise
        except (BrokenPipeError, EOFError):
            raise self._fault() from None
        except (ValueError, IndexError) as error:
            self.kill(f"the session was ended, since dmf's answer to `{lines}` was not understood")
            raise SessionEnded(self.why_ended) from error
        except BaseException:
            self.kill(f"the session was ended when `{lines}` was broken off")
            raise

    @property
    def way(self) -> FilePath:
        words: Any = self.process.args
        used: FilePath = words[0]
        return used

    def is_full_after(self, most: int) -> bool:
        return self.asked_count > most

    def step(self, command: Command, at: object = None) -> int:
        line = command_line(command)
        with self.exchange(line):
            return int(_begun(self.line(), line, [b"c", command[0].encode()], at)[-1])

    def carry_out(self, commands: Sequence[Command]) -> int:
        """Send several at once."""
        value = 0
        for piece in _pieces([command_line(command)] for command in commands):
            lines = list(chain.from_iterable(piece))
            with self.exchange("\n".join(lines)):
                for line, reply in zip(lines, self.lines(len(lines)).splitlines()):
                    fields = reply.split()
                    if fields[:2] == [b"c", b"refused"]:
                        self.kill(
                            f"the session could not be restarted: `{line}` was refused: "
                            f"{display(b' '.join(fields[3:]).decode())}"
                        )
                        raise self.ended()
                    if fields[:2] != [b"c", line.split()[0].encode()]:
                        raise ValueError
                    value = int(fields[-1])
        return value

    def flows(self, value: int, open_count: int) -> bytes:
        with self.exchange("print flow"):
            begin = self.lines(1)
            judged(int(_begun(begin.split(), "print flow", [b"s"])[1]), value)
            text = begin + self.lines(open_count)
            judged(text.count(b"\nf "), open_count)
            return text

    def cut(self) -> tuple[int, list[int]]:
        # A cut does not say how long it is. The reply to `undo 0`, which changes nothing, marks its
        # end.
        with self.exchange("print cut\nundo 0"):
            lines = self.lines_before(b"c undo value ").split(b"\n")[:-1]
            capacity = int(_begun(lines[0].split(), "print cut", [b"c", b"cut"])[2])
            side = [int(line[7:]) for line in lines[1:] if line.startswith(b"c side ")]
            judged(len(side), len(lines) - 1)
            return capacity, side

    def problem(self) -> bytes:
        with self.exchange("print problem"):
            begin = self.lines(1)
            fields = _begun(begin.split(), "print problem", [b"p"])
            return begin + self.lines(int(fields[3]) + 2)

    def try_cases(self, cases: Sequence[Sequence[Command]], value: int, found: list[int]) -> None:
        """Send many at once, so that the program need not wait for the next one."""
        for piece in _pieces(map(case_lines, cases)):
            with self.exchange("\n".join(chain.from_iterable(piece))):
                for case in piece:
                    *changed, solved, undone = (
                        line.split() for line in self.lines(len(case)).splitlines()
                    )
                    if any(fields[1] == b"refused" for fields in changed) or solved[:3] != [
                        b"c",
                        b"solve",
                        b"value",
                    ]:
                        raise ValueError
                    if undone != [b"c", b"undo", b"value", b"%d" % value]:
                        raise ValueError
                    found.append(int(solved[3]))

    def line(self) -> list[bytes]:
        """Return the fields of the next line of the answer. Raises an EOFError if none comes."""
        return self.lines(1).split()

    def lines(self, count: int) -> bytes:
        """Return the next `count` lines of the answer. Raises an EOFError if they do not come."""
        pieces, found = [self._rest], self._rest.count(b"\n")
        while found < count:
            pieces.append(self._read())
            found += pieces[-1].count(b"\n")
        text = b"".join(pieces)
        end = len(text)
        if found == count and text.endswith(b"\n"):
            pass
        elif count <= found - count:
            end = 0
            for _ in range(count):
                end = text.index(b"\n", end) + 1
        else:
            for _ in range(found - count + 1):
                end = text.rindex(b"\n", 0, end)
            end += 1
        self._rest = text[end:]
        return text[:end]

    def lines_before(self, begin: bytes) -> bytes:
        """Return the lines of the answer before the next line that begins like this, which is the
        last line of the whole answer."""
        pieces = [self._rest]
        last = self._rest
        while not (last.endswith(b"\n") and last[last.rfind(b"\n", 0, -1) + 1 :].startswith(begin)):
            pieces.append(self._read())
            # The last line may have arrived in parts.
            last = pieces[-1] if b"\n" in pieces[-1][:-1] else last + pieces[-1]
        self._rest = b""
        text = b"".join(pieces)
        return text[: text.rfind(b"\n", 0, -1) + 1]

    def _read(self) -> bytes:
        piece = os.read(self._output, PIECE)
        if not piece:
            raise EOFError
        return piece

    def break_off(self, why: str) -> None:
        """Kill the program."""
        if self.end.alive:
            self._why_broken = why
            self.process.kill()

    def kill(self, why: str) -> None:
        """Kill the program."""
        if not self.end.alive:
            return
        self.why_ended = why
        self.process.kill()
        self.end()

    def _fault(self) -> Error:
        """Return the error that says why the program has ended: the refusal on its standard error,
        or else all that it wrote there, with its status."""
        status = self._status()
        self._told.seek(0)
        told = self._told.read(MOST_TOLD).decode(errors="replace").strip()
        self.end()
        self.why_ended = (
            self._why_broken
            or f"dmf {executable.end_reason(status)}{': ' if told else ''}{_shown(told)}"
        )
        return _refusal(told) or SessionEnded(self.why_ended)

    def _status(self) -> int | None:
        """Return the status of the program once it has ended. A program that keeps running without
        reading or writing lines is killed, and its status is None."""
        try:
            return self.process.wait(executable.SECONDS)
        except subprocess.TimeoutExpired:
            self.process.kill()
            self.process.wait()
            return None


def _pieces(groups: Iterable[list[str]]) -> Iterator[list[list[str]]]:
    """Yield groups of lines, each as long as what is sent at once."""
    piece: list[list[str]] = []
    size = 0
    for lines in groups:
        length = sum(map(len, lines)) + len(lines)
        if piece and size + length > MOST_TEXT:
            yield piece
            piece, size = [], 0
        piece.append(lines)
        size += length
    if piece:
        yield piece


def _shown(told: str) -> str:
    """Return what a program wrote on standard error in a form that can be shown."""
    return "\n".join(map(display, told.split("\n")))


def _refusal(told: str) -> Refused | None:
    """Return the refusal of a problem that a program wrote on standard error, if it is one."""
    found = _TOLD.fullmatch(told)
    if not found or not found[1] and found[2] not in Refused.kinds:
        return None
    return refused_line(display(found[2]), int(found[1]) if found[1] else None)


def _begun(fields: list[bytes], command: str, begin: list[bytes], at: object = None) -> list[bytes]:
    """Return the fields of the first line of a reply, which must begin with these words. Raises a
    `Refused`, or a ValueError for another reply."""
    if fields[:2] == [b"c", b"refused"]:
        raise refused(display(b" ".join(fields[3:]).decode()), command, at)
    if fields[: len(begin)] != begin:
        raise ValueError
    return fields


def answer_to(
    file: IO[bytes], program: FilePath, words: list[str], begun: Begun | None = None
) -> bytes:
    """Return the program's answer to a problem's file, read from its present position. `begun` is
    called with the process. Raises what `start` raises."""
    used = os.fspath(program)
    executable.refuse_other_version(used)
    # Standard error goes to a file, as that of a session does. `communicate` would read both, but
    # after Ctrl-C it waits for a quarter of a second for the program to end by itself.
    with scratch() as said:
        try:
            # In a session of its own, since Ctrl-C at a terminal is meant for the caller alone, who
            # then ends the program.
            process = subprocess.Popen(
                [used, *words],
                stdin=file,
                stdout=subprocess.PIPE,
                stderr=said,
                start_new_session=True,
            )
        except OSError as error:
            if error.filename == used:
                executable.refuse_unrun(used, error)
            raise
        answer = _read_all(process, begun)
        said.seek(0)
        told = said.read(MOST_TOLD).decode(errors="replace").strip()
    if process.returncode == 0:
        return answer
    fault = _refusal(told)
    if fault:
        raise fault
    ended = SessionEnded(
        f"dmf {executable.end_reason(process.returncode)}{': ' if told else ''}{_shown(told)}"
    )
    executable.refuse_unfit(used, ended)
    raise ended


def _read_all(process: subprocess.Popen[bytes], begun: Begun | None) -> bytes:
    """Return what a program writes until it ends. It is killed if that is broken off."""
    running.note(process)
    assert process.stdout
    with process:
        try:
            if begun:
                begun(process)
            answer = process.stdout.read()
            process.wait()
        except BaseException:
            process.kill()
            raise
        finally:
            running.forget(process)
    return answer


def _end(process: subprocess.Popen[bytes], told: IO[bytes], owner: int) -> None:
    """End a program: close its input, and kill it if that is not enough. Only the process that owns
    it does so."""
    if os.getpid() != owner:
        return
    assert process.stdin and process.stdout
    with contextlib.suppress(OSError):
        process.stdin.close()
    try:
        process.wait(SECONDS)
    except subprocess.TimeoutExpired:
        process.kill()
        process.wait()
    running.forget(process)
    process.stdout.close()
    told.close()


def session_words(most: int) -> list[str | bytes]:
    """Return the words for a session in which at most `most` changes can be undone, and whose
    replies to solves are brief."""
    words: list[str | bytes] = ["session", "--brief"]
    return words if most == MOST_KEPT else [*words, "--history", str(most)]


def start_program(path: str, program: FilePath, words: list[str | bytes]) -> ProgramSession:
    """Begin a session with these words on the problem's file, and wait until it has read the
    problem. Raises a `Refused` if the problem has a fault, `SessionEnded` if the program fails, and
    `NoProgram` if this package cannot use it."""
    used = os.fspath(program)
    executable.refuse_other_version(used)
    try:
        child = ProgramSession([used, *words], path)
    except OSError as error:
        # A temporary file may also be impossible to make.
        if error.filename == used:
            executable.refuse_unrun(used, error)
        raise
    try:
        with child.exchange("undo 0"):
            if child.line() != [b"c", b"undo", b"value", b"0"]:
                raise ValueError
    except SessionEnded as error:
        executable.refuse_unfit(used, error)
        raise
    return child
