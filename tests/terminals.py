"""Runs the built program on a pseudo terminal: with standard error alone there, with standard
output too, or with all its streams."""

from __future__ import annotations

import fcntl
import os
import pty
import subprocess
import termios
import threading
import time
from collections.abc import Callable, Sequence
from types import TracebackType
from typing import IO

from built import BUILT, heed_interrupts
from limits import SECONDS
from tool_runs import wait_until_asleep

# Longer than the program is silent about a task, in seconds.
PAUSE = 0.8


class Terminal:
    """A terminal, and what it gets. What is typed there is not shown."""

    def __init__(self) -> None:
        self.own, self.end = pty.openpty()
        modes = termios.tcgetattr(self.end)
        modes[3] &= ~termios.ECHO
        termios.tcsetattr(self.end, termios.TCSANOW, modes)
        self.pieces: list[bytes] = []
        self.reader = threading.Thread(target=self.drain)
        self.reader.start()
        self.is_open = True

    def __enter__(self) -> Terminal:
        return self

    def __exit__(
        self,
        kind: type[BaseException] | None,
        error: BaseException | None,
        trace: TracebackType | None,
    ) -> None:
        self.close()

    def drain(self) -> None:
        while True:
            try:
                piece = os.read(self.own, 65536)
            except OSError:  # the other end is closed
                return
            if not piece:
                return
            self.pieces.append(piece)

    def told(self) -> str:
        return b"".join(self.pieces).decode().replace("\r\n", "\n")

    def wait_for(self, holds: Callable[[str], bool]) -> bool:
        """Waits until something holds of what it got. Whether it came to that."""
        until = time.monotonic() + SECONDS
        while time.monotonic() < until:
            if holds(self.told()):
                return True
            time.sleep(0.05)
        return False

    def wait_until_taken(self, process: int) -> None:
        """Waits until a program has read the whole lines that were typed, and reads on."""
        until = time.monotonic() + SECONDS
        while any(fcntl.ioctl(self.end, termios.FIONREAD, bytes(4))):
            assert time.monotonic() < until, "what was typed is not read"
            time.sleep(0.01)
        wait_until_asleep(process)

    def type(self, text: bytes) -> None:
        os.write(self.own, text)

    def control(self) -> None:
        """Has a child in a session of its own be interrupted by Ctrl-C here, before it begins."""
        heed_interrupts()
        fcntl.ioctl(self.end, termios.TIOCSCTTY, 0)

    def close(self) -> str:
        """What it got in all."""
        if self.is_open:
            self.is_open = False
            os.close(self.end)
            self.reader.join()
            os.close(self.own)
        return self.told()


def with_terminal(
    words: Sequence[str], given: bytes | IO[bytes], **streams: int
) -> tuple[int, bytes, str]:
    """Runs the program where standard error is a terminal, with a text or a file on standard input.
    Gives its status, what it wrote to a pipe, and what the terminal got."""
    with Terminal() as terminal:
        text, file = (given, None) if isinstance(given, bytes) else (None, given)
        ran = subprocess.run(
            [BUILT, *words],
            input=text,
            stdin=file,
            stdout=subprocess.PIPE,
            stderr=terminal.end,
            timeout=SECONDS,
        )
        return ran.returncode, ran.stdout, terminal.close()


def without_terminal(words: Sequence[str], given: bytes | IO[bytes]) -> tuple[int, bytes, str]:
    """The same with a pipe in place of the terminal."""
    text, file = (given, None) if isinstance(given, bytes) else (None, given)
    ran = subprocess.run(
        [BUILT, *words], input=text, stdin=file, capture_output=True, timeout=SECONDS
    )
    return ran.returncode, ran.stdout, ran.stderr.decode()


def typed(words: Sequence[str], lines: Sequence[bytes], pause: float = PAUSE) -> tuple[int, str]:
    """Runs the program with all its standard streams on a terminal, at which each line is typed
    after a pause in which the program waits for it. Gives its status and what the terminal got."""
    with Terminal() as terminal:
        running = subprocess.Popen(
            [BUILT, *words], stdin=terminal.end, stdout=terminal.end, stderr=terminal.end
        )
        try:
            for line in lines:
                terminal.wait_until_taken(running.pid)
                time.sleep(pause)
                terminal.type(line)
            terminal.type(b"\x04")
            return running.wait(timeout=SECONDS), terminal.close()
        finally:
            # Otherwise the terminal would be read for as long as the program has it open.
            running.kill()
