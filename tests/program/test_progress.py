"""How the built program shows its progress, on one line that is erased before anything is answered
or asked for: on a pseudo terminal, and where it is asked for. Texts are given in pieces, each after
the program has waited for it for a while, and an answer is not taken at once, so that the program
reads and writes after a pause; a network that takes some seconds is solved in sessions."""

from __future__ import annotations

import fcntl
import os
import re
import subprocess
import termios
import threading
import time
from pathlib import Path
from typing import IO

import pytest
from conftest import BUILT
from limits import SECONDS
from make_network import problem_of
from progress_lines import ERASED, WORD, is_on_its_way, lines_of, solves_of, tasks_of
from terminals import PAUSE, Terminal, typed, with_terminal
from tool_runs import wait_until_asleep

INVITATION = "dmf: reads a problem from the terminal; Ctrl-D ends it (dmf --help says more)\n"
SMALL = b"p max 2 1\nn 1 s\nn 2 t\na 1 2 3\n"
SMALL_SOLUTION = b"s 3\nf 1 2 3\n"
TWO_PIPES = b"p max 3 2\nn 1 s\nn 3 t\na 1 2 7\na 2 3 4\n"
COMMANDS = b"solve\nundo\nsolve\n"
# The width and the levels of a problem whose arcs, or nodes, are valued in a second or two.
SLOW_ARCS, SLOW_NODES = (200, 80), (140, 60)
# What is changed before each solve after the first, and what the value of each solve that finds a
# path cannot pass.
BOUNDED_SESSIONS = {
    "a wider pipe to the sink": ([b"cap 2 9"], [4, 7]),
    "one narrower than what leaves the source": ([b"cap 2 2", b"cap 2 3"], [4, 3]),
    "a pipe beside them": ([b"add 1 3 5"], [4, 9]),
    "a pipe from the source to itself, which lets nothing out": ([b"add 1 1 50\ncap 2 99"], [4, 7]),
    "a shut node and an undo": ([b"shut 2\nundo 2"], [4, 4]),
    "a change that is undone": ([b"cap 2 9", b"undo 3"], [4, 7, 4]),
}


@pytest.fixture(scope="module")
def problem() -> bytes:
    """A problem whose reading, solving and answer take their time."""
    return problem_of(64, 60, 3, 100, 1990).encode()


@pytest.fixture
def small(tmp_path: Path) -> Path:
    (tmp_path / "small.max").write_bytes(SMALL)
    return tmp_path / "small.max"


def piped(words: list[str], given: bytes | IO[bytes]) -> subprocess.CompletedProcess[bytes]:
    """A run without a terminal."""
    text, file = (given, None) if isinstance(given, bytes) else (None, given)
    return subprocess.run([BUILT, *words], input=text, stdin=file, capture_output=True)


def feed(pipe: IO[bytes], text: bytes, process: int) -> None:
    """Gives a process a text in two pieces. It waits for a while for each of them and for the
    end."""
    half = len(text) // 2
    for piece in (text[:half], text[half:]):
        wait_until_asleep(process)
        time.sleep(PAUSE)
        pipe.write(piece)
        pipe.flush()
    wait_until_asleep(process)
    time.sleep(PAUSE)
    pipe.close()


def wait_until_blocked(running: subprocess.Popen[bytes]) -> None:
    """Waits until a program cannot write on, since nobody reads its answer, or has ended."""
    assert running.stdout
    until, unread = time.monotonic() + SECONDS, bytearray(4)
    while not any(unread) and running.poll() is None:
        assert time.monotonic() < until, "nothing is answered"
        time.sleep(0.01)
        fcntl.ioctl(running.stdout, termios.FIONREAD, unread)
    if running.poll() is None:
        wait_until_asleep(running.pid)


def slowly(words: list[str], text: bytes, both: bool) -> tuple[int, bytes, str]:
    """Runs the program where standard error is a terminal, and standard output too or a pipe that
    is read once the program has waited for that for a while. Gives its status, what it wrote to the
    pipe, and what the terminal got."""
    with Terminal() as terminal:
        out = terminal.end if both else subprocess.PIPE
        running = subprocess.Popen(
            [BUILT, *words], stdin=subprocess.PIPE, stdout=out, stderr=terminal.end
        )
        assert running.stdin
        threading.Thread(target=feed, args=(running.stdin, text, running.pid)).start()
        answer = b""
        if running.stdout:
            wait_until_blocked(running)
            time.sleep(PAUSE)
            answer = running.stdout.read()
        return running.wait(timeout=SECONDS), answer, terminal.close()


@pytest.mark.seconds(5)
def test_slow_solve(problem: bytes) -> None:
    silent = piped(["solve"], problem)
    assert (silent.returncode, silent.stderr) == (
        0,
        b"",
    ), "nothing is told where standard error is no terminal"
    status, solution, told = slowly(["solve"], problem, both=False)
    assert (status, solution) == (0, silent.stdout)
    assert tasks_of(told) == ["reading", "solving", "writing"]


@pytest.mark.seconds(5)
def test_one_terminal(problem: bytes) -> None:
    """The line is erased before the solution, and none is shown while that is written."""
    status, _, told = slowly(["solve"], problem, both=True)
    told, _, solution = told.rpartition(ERASED)
    assert (status, solution.encode()) == (0, piped(["solve"], problem).stdout)
    assert tasks_of(told + ERASED) == ["reading", "solving"]


def test_quick_solve() -> None:
    assert with_terminal(["solve"], SMALL) == (0, SMALL_SOLUTION, "")


@pytest.mark.seconds(4)
@pytest.mark.parametrize(
    ("command", "answer"), [("solve", SMALL_SOLUTION), ("vital", b"c value 3\nv 1 0\n")]
)
def test_typed_problem(command: str, answer: bytes) -> None:
    """Nothing is shown between lines that are typed."""
    status, told = typed([command], SMALL.splitlines(keepends=True))
    assert (status, told.encode()) == (0, INVITATION.encode() + answer)


@pytest.mark.seconds(5)
def test_fault(problem: bytes) -> None:
    """A fault has a line of its own."""
    status, solution, told = slowly(["solve"], problem[:-2] + b"x\n", both=False)
    assert (status, solution) == (3, b"") and told.rpartition(ERASED)[2].startswith("dmf: line ")


@pytest.mark.seconds(25)
def test_session(tmp_path: Path) -> None:
    """A session of a problem that takes some seconds. On a terminal it writes the same replies, and
    tells of each solve, from its first path on. On one terminal the line is erased before each
    reply, and the replies are the same."""
    long = str(tmp_path / "long.max")
    Path(long).write_text(problem_of(100, 900, 3, 1000, 1990))
    silent = piped(["session", long], COMMANDS)
    assert (silent.returncode, silent.stderr) == (
        0,
        b"",
    ), "nothing is told where standard error is no terminal"
    status, replies, told = with_terminal(["session", long], COMMANDS)
    assert (status, replies) == (0, silent.stdout)
    solves = solves_of(told)
    assert len(solves) == 2 and all(map(is_on_its_way, solves))
    status, told = typed(["session", long], [COMMANDS])
    told, _, last = told.rpartition(ERASED)
    assert status == 0 and silent.stdout.endswith(last.encode())
    assert WORD.sub("", told).replace(ERASED, "").encode() + last.encode() == silent.stdout


@pytest.mark.seconds(3)
def test_waiting_session(small: Path) -> None:
    """A session that only waits shows nothing."""
    status, told = typed(["session", str(small)], [b"so", b"lve\n", b"print flow\n"])
    assert (status, told.encode()) == (0, 2 * SMALL_SOLUTION)


@pytest.mark.seconds(3)
def test_slow_problem(tmp_path: Path) -> None:
    """What a session showed of its problem is erased before it waits for commands."""
    pipe = tmp_path / "slow.max"
    os.mkfifo(pipe)
    with Terminal() as terminal:
        words = [str(BUILT), "session", str(pipe)]
        running = subprocess.Popen(
            words, stdin=subprocess.PIPE, stdout=subprocess.PIPE, stderr=terminal.end
        )
        feed(open(pipe, "wb"), SMALL, running.pid)
        assert terminal.wait_for(
            lambda told: told.endswith(ERASED) and tasks_of(told) == ["reading"]
        )
        out, _ = running.communicate(b"solve\n", timeout=SECONDS)
        assert (running.returncode, out, tasks_of(terminal.close())) == (
            0,
            SMALL_SOLUTION,
            ["reading"],
        )


def test_asked_while_waiting(small: Path) -> None:
    """Asked for on a terminal, what was shown of the problem is erased while the session waits."""
    words = [str(BUILT), "session", "--progress", str(small)]
    with Terminal() as terminal, subprocess.Popen(
        words, stdin=subprocess.PIPE, stdout=subprocess.DEVNULL, stderr=terminal.end
    ) as running:
        is_erased = terminal.wait_for(lambda told: "reading" in told and told.endswith(ERASED))
        wait_until_asleep(running.pid)
        shown = terminal.told()
        running.communicate(b"")
    assert is_erased and tasks_of(shown) == ["reading"]


@pytest.mark.seconds(3)
def test_slow_fault(tmp_path: Path) -> None:
    """What a session showed of a problem is erased before the problem's fault is told."""
    pipe = tmp_path / "slow.max"
    os.mkfifo(pipe)
    with Terminal() as terminal:
        running = subprocess.Popen(
            [str(BUILT), "session", str(pipe)], stdin=subprocess.DEVNULL, stderr=terminal.end
        )
        feed(open(pipe, "wb"), SMALL + b"x\n", running.pid)
        assert running.wait(timeout=SECONDS) == 3
        shown, _, told = terminal.close().rpartition(ERASED)
        assert tasks_of(shown + ERASED) == ["reading"] and told.startswith(
            "dmf: line 5: unknown line\n"
        )


@pytest.mark.seconds(5)
def test_check(small: Path) -> None:
    status, verdict, told = slowly(["check", str(small)], SMALL_SOLUTION, both=False)
    assert (status, verdict, tasks_of(told)) == (0, b"c greatest 3\n", ["reading"])


def test_asked_solve(problem: bytes) -> None:
    """Asked for, a solve tells without a terminal that it reads, on lines, and writes the same
    solution."""
    asked = piped(["solve", "--cut", "--progress"], problem)
    assert lines_of(asked.stderr)[:1] == ["reading"]
    assert (asked.returncode, asked.stdout) == (0, piped(["solve", "--cut"], problem).stdout)


def test_asked_vital(small: Path) -> None:
    """So does a run that values each arc. Its solve begins with a flow that is greatest already,
    and then has no path to tell of."""
    asked = piped(["vital", "--progress"], small.read_bytes())
    assert (asked.returncode, asked.stdout) == (0, b"c value 3\nv 1 0\n")
    assert lines_of(asked.stderr) == ["reading"]
    assert piped(["vital"], small.read_bytes()).stderr == b""
    nodes = piped(["vital", "--nodes", "--progress"], small.read_bytes())
    assert (nodes.returncode, lines_of(nodes.stderr)) == (0, ["reading"])


@pytest.mark.seconds(15)
@pytest.mark.parametrize(("option", "size"), [([], SLOW_ARCS), (["--nodes"], SLOW_NODES)])
def test_asked_valuing(option: list[str], size: tuple[int, int]) -> None:
    """While a run values arcs or nodes, it shows how many of them it has gone through, here for one
    or two seconds. All are those of the problem: its lines of arcs, or each node that they name."""
    problem = problem_of(*size, 3, 100, 1990).encode()
    arcs = [line for line in problem.splitlines() if line.startswith(b"a ")]
    nodes = {node for line in arcs for node in line.split()[1:3]}
    count = len(nodes if option else arcs)
    asked = piped(["vital", *option, "--progress"], problem)
    assert (asked.returncode, asked.stdout) == (0, piped(["vital", *option], problem).stdout)
    assert "valuing" in lines_of(asked.stderr)
    told = re.findall(rb"^dmf: valuing, (\d+) of (\d+)$", asked.stderr, re.MULTILINE)
    done, counts = zip(*(map(int, word) for word in told))
    assert {*counts} == {count} and len(done) > 1
    assert [*done] == sorted({*done}) and done[-1] < count


@pytest.mark.seconds(5)
def test_slow_vital() -> None:
    """On a terminal it shows so after half a second, and erases the line before the answer."""
    problem = problem_of(*SLOW_ARCS, 3, 100, 1990).encode()
    status, answer, told = with_terminal(["vital"], problem)
    assert (status, answer) == (0, piped(["vital"], problem).stdout)
    assert "valuing" in tasks_of(told)


def test_asked_session(small: Path) -> None:
    asked = piped(["session", "--progress", str(small)], b"solve\n")
    assert lines_of(asked.stderr)[:2] == ["reading", "solving"]
    assert (asked.returncode, asked.stdout) == (0, SMALL_SOLUTION)


def test_asked_on_terminal(tmp_path: Path) -> None:
    """Asked for on a terminal, progress is shown from the start, and its line is erased before each
    reply."""
    (tmp_path / "pipes.max").write_bytes(TWO_PIPES)
    status, told = typed(
        ["session", "--progress", "--brief", str(tmp_path / "pipes.max")], [b"solve\nclose 2\n"]
    )
    assert status == 0 and "solving" in told and "draining" in told
    assert (
        re.sub(r"\r\x1b\[K(dmf: [^\r\n]*(?=\r\x1b\[K))?", "", told)
        == "c solve value 4\nc close value 0\n"
    )


def test_size(tmp_path: Path) -> None:
    """Where the size is known, it is told beside what is read: 9 bytes for each line of a comment
    make three megabytes."""
    large = tmp_path / "large.max"
    large.write_bytes(SMALL + b"c filler\n" * 333_334)
    with open(large, "rb") as file:
        assert piped(["solve", "--progress"], file).stderr.startswith(
            b"dmf: reading, 0 MB of 3 MB\n"
        )
    assert piped(["session", "--progress", str(large)], b"").stderr.startswith(
        b"dmf: reading, 0 MB of 3 MB\n"
    )
    assert piped(["solve", "--progress"], large.read_bytes()).stderr.startswith(
        b"dmf: reading, 0 MB\n"
    )


def most_of(problem: bytes) -> int:
    """The lesser of what can leave the source and what can enter the sink."""
    lines = [line.split() for line in problem.splitlines()]
    ends = {line[2]: line[1] for line in lines if line and line[0] == b"n"}
    arcs = [line for line in lines if line and line[0] == b"a"]
    leaving = sum(int(cap) for _, tail, _, cap in arcs if tail == ends[b"s"])
    return min(leaving, sum(int(cap) for _, _, head, cap in arcs if head == ends[b"t"]))


@pytest.mark.seconds(2)
@pytest.mark.parametrize("kind", ["a file", "a pipe", "a file from its middle"])
def test_bound(tmp_path: Path, kind: str) -> None:
    """What the value cannot pass is told wherever the problem comes from, here of one that takes
    half a second."""
    problem = problem_of(100, 400, 3, 1000, 1990).encode()
    front = b"c a line before\n" if kind == "a file from its middle" else b""
    (tmp_path / "bounded.max").write_bytes(front + problem)
    with open(tmp_path / "bounded.max", "rb") as file:
        os.lseek(file.fileno(), len(front), os.SEEK_SET)
        asked = piped(["solve", "--progress"], problem if kind == "a pipe" else file)
    told = re.findall(rb"value \d+( of at most \d+)?, phase", asked.stderr)
    assert {*told} == {b" of at most %d" % most_of(problem)}


@pytest.mark.parametrize("name", BOUNDED_SESSIONS)
def test_bound_in_session(tmp_path: Path, name: str) -> None:
    """And in a session it is that of the state which is solved."""
    changes, bounds = BOUNDED_SESSIONS[name]
    (tmp_path / "changed.max").write_bytes(TWO_PIPES)
    commands = b"".join(b"%s\nsolve\n" % change for change in (b"c the problem as it is", *changes))
    asked = piped(["session", "--progress", str(tmp_path / "changed.max")], commands)
    assert [*map(int, re.findall(rb"value \d+ of at most (\d+), phase", asked.stderr))] == bounds
