"""Programs that end in odd ways, or print much: scripts that stand in for dmf."""

import re
import subprocess
import sys
import threading
from collections.abc import Callable

import pytest
from client_shared import CLIENT, answering, dmf, pipes, script
from dmf.session import executable
from limits import SECONDS


def ended(answer: str) -> str:
    """Why the session has ended, which each later call says too."""
    with answering(answer) as network:
        told = []
        calls: list[Callable[[], object]] = [network.solve, network.undo]
        for call in calls:
            with pytest.raises(dmf.SessionEnded) as caught:
                call()
            told.append(str(caught.value))
    assert told[0] == told[1]
    return told[0]


def test_signals() -> None:
    """Between the first and the last of the real-time signals none has a name."""
    for signal, name in (15, "SIGTERM"), (9, "SIGKILL"), (40, "40"), (63, "63"):
        assert ended(f"kill -{signal} $$; sleep 9") == f"dmf ended by the signal {name}"


def test_statuses() -> None:
    assert ended("exit 7") == "dmf ended with status 7"
    assert ended("echo dmf: read failed >&2; exit 4") == "dmf ended with status 4: dmf: read failed"


def test_standard_error_is_shown_safely() -> None:
    answer = r"printf '\033]0;title\007\033[31mred\nsecond\r\200 \342\200\256line\n' >&2; exit 1"
    wanted = (
        "dmf ended with status 1: \\x1b]0;title\\x07\\x1b[31mred\nsecond\\x0d\ufffd \\u202eline"
    )
    assert ended(answer) == wanted


def test_a_reason_is_shown_safely() -> None:
    with answering(r"printf 'c refused 2 too \033[31mwindy\n'") as network:
        with pytest.raises(dmf.Refused, match=r"^refused: too \\x1b\[31mwindy: solve$"):
            network.solve()
    with script(r"printf 'dmf: line 4: too \033[31mwindy\n' >&2; exit 3") as program:
        with pytest.raises(
            dmf.Refused, match=r"^refused: too \\x1b\[31mwindy: <Arc 1: 'lake' to 'mill'>$"
        ):
            pipes(program=program)


def test_much_on_standard_error() -> None:
    """More than a pipe holds, before and between the answers: nothing waits for a reader."""
    much = "head -c 300000 /dev/zero | tr '\\0' x >&2"
    values: list[int] = []

    def run() -> None:
        with answering(f"{much}; echo c undo value 7") as network:
            values.extend(network.undo(0) for _ in range(3))

    thread = threading.Thread(target=run, daemon=True)
    thread.start()
    thread.join(SECONDS)
    assert values == [7, 7, 7]
    # Of what was told, the first 65,536 bytes are shown.
    assert ended(f"{much}; exit 1") == f"dmf ended with status 1: {'x' * 65536}"


def test_it_answers_no_more_and_does_not_end(monkeypatch: pytest.MonkeyPatch) -> None:
    monkeypatch.setattr(executable, "SECONDS", 1)
    wanted = "dmf closed its input or its output, did not end within 1 seconds and was killed"
    assert ended("exec sleep 60 >&-") == wanted
    assert ended("exec sleep 60 <&- >&-") == wanted


def test_a_long_number_in_an_answer() -> None:
    wanted = "the session was ended, since dmf's answer to `solve` was not understood"
    assert ended("echo s $(head -c 5000 /dev/zero | tr '\\0' 9)") == wanted
    assert re.search(wanted, ended(r"printf 's \377\n'"))


@pytest.mark.parametrize("closing", ["<&-", "2>&-", "<&- 2>&-"])
def test_closed_streams(closing: str) -> None:
    """Where this process has a standard stream no more, no file of a network takes the place that
    the program's stream has."""
    code = (
        'import dmf; arcs = [("a", "b", 3)]; print(dmf.Network(arcs, "a", "b").solve().value, '
        'dmf.value(arcs, "a", "b"))'
    )
    words = [
        "sh",
        "-c",
        f'cd "$1" && exec "$2" -c "$3" {closing}',
        "sh",
        CLIENT,
        sys.executable,
        code,
    ]
    ran = subprocess.run(words, stdout=subprocess.PIPE, text=True, timeout=SECONDS)
    assert (ran.returncode, ran.stdout) == (0, "3 3\n")
