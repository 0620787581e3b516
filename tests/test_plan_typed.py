"""dmf-plan at a terminal: what is typed, and Ctrl-C."""

from __future__ import annotations

import os
import pty
import re
import select
import signal
import tempfile
import time
from pathlib import Path

import pytest
from desk_shared import (
    PIPES,
    ROOT,
    desk_of,
    end_session,
    sessions_of,
    stop_session,
    water,
    water_problem,
    without,
)
from dmf import Network
from dmf.desk.plan.shell import Shell
from limits import SECONDS
from tool_runs import wait_until_asked, wait_until_asleep

WATER = water_problem()


class Terminal:
    """The tool on a terminal of its own, of a kind: one that cannot move its cursor, if no other is
    named."""

    def __init__(self, folder: str, kind: str = "dumb", table: str = PIPES) -> None:
        self.pid, self.side = pty.fork()
        if not self.pid:
            signal.signal(signal.SIGINT, signal.SIG_DFL)
            os.environ.update(
                XDG_STATE_HOME=folder, TERM=kind, INPUTRC="/dev/null", PYTHONUNBUFFERED="1"
            )
            os.environ.update(
                PROMPT_TOOLKIT_NO_CPR="1", PAGER="cat; echo PAGED", LINES="12", COLUMNS="120"
            )
            os.environ.pop("MANPAGER", None)
            os.chdir(ROOT)
            os.execv(ROOT / "tools/dmf-plan", ["dmf-plan", table])
        self.seen = ""

    def wait(self, wanted: str) -> str:
        """What is seen up to a text. It is taken out of what is seen."""
        until = time.monotonic() + SECONDS
        while wanted not in self.seen:
            if not select.select([self.side], [], [], max(until - time.monotonic(), 0))[0]:
                raise AssertionError(f"no {wanted!r} in {self.seen!r}")
            try:
                self.seen += os.read(self.side, 1 << 16).decode(errors="replace")
            except OSError:
                raise AssertionError(f"it ended without {wanted!r}: {self.seen!r}") from None
        before, _, self.seen = self.seen.partition(wanted)
        return before

    def type(self, text: str) -> None:
        os.write(self.side, text.encode())

    def answer(self, text: str) -> str:
        """What is told after a text is typed at a prompt of prompt-toolkit, which asks for pasted
        text to be marked; up to the next prompt, and with it."""
        self.type(text)
        self.wait("\x1b[?2004l")
        return self.wait("\x1b[?2004h") + self.wait(">") + ">"

    def end(self) -> int:
        status = os.waitstatus_to_exitcode(os.waitpid(self.pid, 0)[1])
        os.close(self.side)
        return status


def test_new_place(tmp_path: Path) -> None:
    """A place that does not exist is made only if the answer is yes. The near ones are named."""
    terminal = Terminal(str(tmp_path))
    terminal.wait("165, greatest> ")
    question = "There is no place called 'New Town'. Make it? [y/n] "
    for typed, asked, answer, told in (
        ("add Mill New Town 50", question, "", "no place is called 'New Town'"),
        ("add Mill New Town 50", question, "y", "value 165 litres per second, the greatest"),
        ("add New Town Harbour 30", "", "", "value 165 litres per second; more can be sent: solve"),
        ("solve", "", "", "value 180 litres per second, 15 more, the greatest"),
        (
            "add Mill Statoin 5",
            "There is no place called 'Statoin', but there is 'Station'. Make 'Statoin'? [y/n] ",
            "no",
            "no place is called 'Statoin'; is it 'Station'?",
        ),
        (
            "add Foxhole Quay 5",
            "There is no place called 'Foxhole' and no place called 'Quay'. Make them? [y/n] ",
            "yes",
            "value 180 litres per second, the greatest",
        ),
        ("add Quay --new Tarn 5", "", "", "value 180 litres per second, the greatest"),
    ):
        terminal.type(f"{typed}\n")
        if asked:
            terminal.wait(asked)
            terminal.type(f"{answer}\n")
        assert told in terminal.wait("greatest> "), typed
    terminal.type("quit\n")
    assert terminal.end() == 0


def test_broken_off() -> None:
    """Ctrl-C ends a command that would run on, at once, and the steps before it are there."""
    with tempfile.TemporaryDirectory() as folder:
        terminal = Terminal(folder)
        terminal.wait("165, greatest> ")
        for typed, prompt in ("close Bridge pipe", "155, greatest> "), (
            "try",
            "try, 155, greatest> ",
        ):
            terminal.type(f"{typed}\n")
            terminal.wait(prompt)
        (session,) = sessions_of(terminal.pid)
        stop_session(session)
        terminal.type('shut "South Tower"\n')
        wait_until_asked(session)
        wait_until_asleep(terminal.pid)
        terminal.type("\x03")
        told = terminal.wait("try, 155, greatest> ")
        assert (
            "broken off" in told and "begun again, with the steps that were made: value 155" in told
        ), f"Ctrl-C: {told!r}"
        assert sessions_of(terminal.pid) != [session]
        terminal.type('shut "South Tower"\n')
        terminal.wait("try, 105, greatest> ")
        # A sweep has programs of its own, and leaves the session as it is.
        terminal.type("drop\nwhat-if each arc of the cut\nundo\nquit\n")
        told = terminal.wait("165, greatest> ")
        assert terminal.end() == 0 and "ended" not in told, told


def test_broken_off_again(
    monkeypatch: pytest.MonkeyPatch, capsys: pytest.CaptureFixture[str]
) -> None:
    """Ctrl-C also ends the steps that are made again, and none of them is lost."""
    told: list[str] = []
    plan = Shell(desk_of(WATER), is_typed=True, write=told.append)
    plan.onecmd("close Bridge pipe")

    def broken_off(*_: object) -> None:
        raise KeyboardInterrupt

    with monkeypatch.context() as patched:
        patched.setattr(Network, "close", broken_off)
        plan.onecmd("close Mill Lane")
    said = capsys.readouterr().err
    assert "broken off\nit could not be begun again: broken off;" in said, said
    plan.onecmd("close Mill Lane")
    assert (
        "begun again" in told[-2]
        and f"value {without('Bridge pipe', 'Mill Lane')} litres per second," in told[-1]
    ), told
    plan.desk.end()


def test_typed_bytes(monkeypatch: pytest.MonkeyPatch) -> None:
    """A line that is no text ends nothing."""
    # As in most locales.
    monkeypatch.setenv("PYTHONIOENCODING", "utf-8:strict")
    with tempfile.TemporaryDirectory() as folder:
        terminal = Terminal(folder)
        terminal.wait("165, greatest> ")
        os.write(terminal.side, b"close \xff\xfe\n")
        terminal.wait("165, greatest> ")
        terminal.type("quit\n")
        assert terminal.end() == 0


def test_typed() -> None:
    """A person completes names, breaks off a line, finds yesterday's lines, and goes on where the
    session ended by itself."""
    with tempfile.TemporaryDirectory() as folder:
        terminal = Terminal(folder)
        terminal.wait("value 165 litres per second, the greatest")
        terminal.wait("165, greatest> ")
        terminal.type("sol\tve\n")
        terminal.wait("165, greatest> ")
        terminal.type("close Bri\t\n")
        told = terminal.wait("155, greatest> ")
        assert '"Bridge pipe"' in told, f"a name is completed: {told!r}"
        terminal.type("close rubbish")
        terminal.wait("close rubbish")
        wait_until_asleep(terminal.pid)
        terminal.type("\x03")
        terminal.wait("155, greatest> ")
        terminal.type("try\n")
        terminal.wait("try, 155, greatest> ")
        terminal.type('shut "South T\t\n')
        terminal.wait("try, 105, greatest> ")
        terminal.type("drop\n")
        terminal.wait("\n155, greatest> ")
        end_session(terminal.pid)
        terminal.type("close Mill Lane\n")
        told = terminal.wait("155, greatest> ")
        assert "begun again" in told and "SIGKILL" in told, f"a session that ended: {told!r}"
        terminal.type("undo\n")
        terminal.wait("165, greatest> ")
        terminal.type("quit\n")
        status = terminal.end()
        assert status == 0, f"the end of a typed session: {status}"
        history = Path(folder, "dmf", "plan_history").read_text()
        assert 'close "Bridge pipe"' in history, f"the history: {history}"
        again = Terminal(folder)
        again.wait("165, greatest> ")
        again.type("\x10")
        told = again.wait("quit")
        again.type("\n")
        assert again.end() == 0, f"yesterday's lines: {told!r}"


def drawn(folder: Path, table: str = PIPES) -> Terminal:
    """A session on a terminal that moves its cursor, where prompt-toolkit asks for lines."""
    return Terminal(str(folder), "xterm", table)


# What is typed, which line that makes, and the value after it: the names are those of the story.
TYPED = [
    ("close bri\t\r", 'close "Bridge pipe" ', without("Bridge pipe")),
    ('open "BRIDGE P\t\r', 'open "Bridge pipe" ', without()),
    ("close bridge pipe\r", "close bridge pipe", without("Bridge pipe")),
    ("open\r", "open", without()),
    ('close "MILL L\t\r', 'close "Mill Lane" ', without("Mill Lane")),
    ("undo\r", "undo", without()),
    ("close mill-market\r", "close mill-market", without("Mill Lane")),
    ("undo\r", "undo", without()),
]


def test_any_case(tmp_path: Path) -> None:
    """Names are completed and understood without regard to case, with their spaces and quotes; the
    lines are there the next time."""
    terminal = drawn(tmp_path)
    terminal.wait("165, greatest>")
    for typed, _, value in TYPED:
        told = terminal.answer(typed)
        if "not greatest" in told:
            told = terminal.answer("solve\r")
        assert f"{value}, greatest>" in told, (typed, told)
    terminal.type("\x04")
    assert terminal.end() == 0
    kept = (tmp_path / "dmf" / "plan_history").read_text().splitlines()
    assert [line for line in kept if line != "solve"] == [line for _, line, _ in TYPED]
    again = drawn(tmp_path)
    again.wait("165, greatest>")
    assert f"{without('Mill Lane')}, greatest>" in again.answer("\x10" * 4 + "\r")
    again.type("quit\r")
    assert again.end() == 0


def test_accents_and_quotes(tmp_path: Path) -> None:
    """A name with accents, spaces and quotes is completed from its first letters, in the form in
    which it is understood; of several the letters that they share come, and then all of them."""
    table = tmp_path / "net.csv"
    table.write_text(
        'from,to,litres,pipe\nSource,Été,9,"Öst ""A"" 1"\nÉté,Sink,5,b\nSource,Sink,2,North one\n'
        "Source,Sink,4,North two\n"
    )
    terminal = drawn(tmp_path, str(table))
    terminal.wait("11, greatest>")
    assert "6, greatest>" in terminal.answer("close ost\t\r")
    terminal.answer("undo\r")
    assert "11, greatest>" in terminal.answer("solve\r")
    assert "6, greatest>" in terminal.answer("shut ete\t\r")
    terminal.type("close nor\t")
    terminal.wait("North")
    terminal.type("\t")
    terminal.wait("two")
    assert "2, greatest>" in terminal.answer("\t\t\r")
    terminal.type("\x04")
    assert terminal.end() == 0
    kept = (tmp_path / "dmf" / "plan_history").read_text().splitlines()
    assert [kept[0], *kept[3:]] == ['close "Öst ""A"" 1" ', "shut Été ", 'close "North two" ']


def test_interrupts_of_the_prompt(tmp_path: Path) -> None:
    """With prompt-toolkit too Ctrl-C leaves a line and breaks off a command, bytes that are no text
    end nothing, and the session begins again by itself."""
    terminal = drawn(tmp_path)
    terminal.wait("165, greatest>")
    assert "165, greatest>" in terminal.answer("close rubbish\x03")
    os.write(terminal.side, b"close \xff\xfe")
    assert "that line is not UTF-8" in terminal.answer("\r")
    (session,) = sessions_of(terminal.pid)
    stop_session(session)
    terminal.type("close Bridge pipe\r")
    wait_until_asked(session)
    wait_until_asleep(terminal.pid)
    os.kill(terminal.pid, signal.SIGINT)
    told = terminal.answer("")
    assert (
        "broken off" in told and "begun again, with the steps that were made: value 165" in told
    ), told
    assert "155, greatest>" in terminal.answer("close Bridge pipe\r")
    terminal.type("\x04")
    assert terminal.end() == 0


def test_pager(tmp_path: Path) -> None:
    """An answer that is longer than the terminal is shown by the pager, and a short one as it is;
    what is pasted is several lines."""
    terminal = drawn(tmp_path)
    terminal.wait("165, greatest>")
    told = terminal.answer("pipes\r")
    assert "PAGED" in told and all(pipe.name in told for pipe in water()), told
    told = terminal.answer("pipes where limit\r")
    assert "PAGED" not in told and "Mill Lane" in told, told
    told = terminal.answer("\x1b[200~close Bridge pipe\nundo\x1b[201~\r")
    assert [*re.findall("value ([0-9]+)", told)] == ["155", "165"], told
    terminal.type("\x04")
    assert terminal.end() == 0


@pytest.mark.parametrize("kind", ["dumb", "xterm"])
def test_clean_end(tmp_path: Path, kind: str) -> None:
    """Ctrl-D ends on a line of its own."""
    terminal = Terminal(str(tmp_path), kind)
    terminal.wait("165, greatest>")
    terminal.type("\x04")
    rest = b""
    while select.select([terminal.side], [], [], SECONDS)[0]:
        try:
            piece = os.read(terminal.side, 1 << 16)
        except OSError:
            break
        rest += piece
    assert (
        b"\n" in rest
        and re.sub(rb"\x1b\[[?0-9;]*[a-zA-Z]", b"", rest).rsplit(b"\n", 1)[1].strip() == b""
    ), rest
    assert terminal.end() == 0
