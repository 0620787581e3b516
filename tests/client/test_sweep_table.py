"""The file of `dmf-sweep --table`: two sweeps at once, disks that are full, and what is no file."""

from __future__ import annotations

import csv
import errno
import fcntl
import os
import signal
import subprocess
from collections.abc import Iterator
from contextlib import contextmanager
from pathlib import Path

import pytest
from built import heed_interrupts
from limits import SECONDS
from stopped_sweeps import STOPPING, command, wait_until_stopped

INTO_TABLE = ["net.max", "--close-each", "--jobs", "1", "--table", "table.csv"]
ARCS = 700
ROOMS = [number % 7 + 1 for number in range(ARCS)]


@pytest.fixture(autouse=True)
def folder(tmp_path: Path, monkeypatch: pytest.MonkeyPatch) -> Path:
    """The folder in which each test runs, with a problem of arcs side by side."""
    monkeypatch.chdir(tmp_path)
    lines = "".join(f"a 1 2 {room}\n" for room in ROOMS)
    (tmp_path / "net.max").write_text(f"p max 2 {ARCS}\nn 1 s\nn 2 t\n{lines}")
    return tmp_path


def run_tool(*words: str, before: str = "") -> subprocess.CompletedProcess[str]:
    return subprocess.run(
        command(*words, before=before), capture_output=True, text=True, timeout=SECONDS
    )


def judge_table() -> None:
    """The table has each case once."""
    with open("table.csv", newline="") as file:
        _, *rows = csv.reader(file)
    assert [row[:5] for row in rows] == [
        [str(at), f"close {at}", "1 -> 2", str(sum(ROOMS) - room), str(-room)]
        for at, room in enumerate(ROOMS, 1)
    ]


@contextmanager
def begun() -> Iterator[subprocess.Popen[str]]:
    """A sweep that has tried some cases, and waits as long as the block takes."""
    words = command(*INTO_TABLE, before=STOPPING)
    with subprocess.Popen(
        words, stderr=subprocess.PIPE, text=True, preexec_fn=heed_interrupts
    ) as process:
        wait_until_stopped(process)
        try:
            yield process
        finally:
            process.send_signal(signal.SIGCONT)


def test_two_at_once() -> None:
    """The second is refused, and says which process has the table. Nothing is lost, and no case
    stands twice."""
    with begun() as first:
        before = Path("table.csv").read_bytes()
        second = run_tool(*INTO_TABLE)
        assert (second.returncode, second.stdout) == (4, "")
        assert (
            second.stderr
            == f"dmf-sweep: table.csv is being written by process {first.pid}; two sweeps cannot "
            "write one table\n"
        )
        assert Path("table.csv").read_bytes() == before
    assert first.returncode == 0
    judge_table()


def test_two_that_begin_at_once() -> None:
    """One of them writes the table, whichever it is; the other is refused, or comes when all is
    done."""
    both = [
        subprocess.Popen(command(*INTO_TABLE), stderr=subprocess.PIPE, text=True) for _ in range(2)
    ]
    told = [process.communicate(timeout=SECONDS)[1] for process in both]
    statuses = {process.returncode for process in both}
    assert 0 in statuses and statuses <= {0, 4}, told
    judge_table()


@pytest.mark.parametrize("number", [signal.SIGKILL, signal.SIGINT])
def test_one_that_is_killed(number: int) -> None:
    """Its lock goes with it, and the next run goes on."""
    with begun() as first:
        first.send_signal(number)
    assert first.returncode == {signal.SIGKILL: -number, signal.SIGINT: 130}[signal.Signals(number)]
    assert run_tool(*INTO_TABLE).returncode == 0
    judge_table()


def test_another_process_has_it() -> None:
    """Any process, whether or not the system tells which."""
    with open("table.csv", "w") as file:
        fcntl.flock(file, fcntl.LOCK_EX)
        wanted = "dmf-sweep: table.csv is being written by {}; two sweeps cannot write one table\n"
        assert run_tool(*INTO_TABLE).stderr == wanted.format(f"process {os.getpid()}")
        hidden = "import pathlib; read = pathlib.Path.read_text\n"
        hidden += (
            "pathlib.Path.read_text = lambda path, *words: '' if str(path) == '/proc/locks' else "
            "read(path, *words)"
        )
        assert run_tool(*INTO_TABLE, before=hidden).stderr == wanted.format("another process")


def test_a_file_system_without_locks() -> None:
    """The sweep goes on, and says so."""
    before = (
        f"import fcntl, os\ndef flock(*_): raise OSError({errno.ENOLCK}, "
        f"os.strerror({errno.ENOLCK}))\nfcntl.flock = flock"
    )
    ran = run_tool(*INTO_TABLE, before=before)
    told = (
        "dmf-sweep: table.csv cannot be locked: No locks available. Let no other sweep write to "
        "it\n"
    )
    assert (ran.returncode, ran.stderr) == (0, told)
    judge_table()


def room_for(size: int) -> str:
    """A script that lets no file grow past a size, as a full disk does."""
    return f"import resource; resource.setrlimit(resource.RLIMIT_FSIZE, ({size}, {size}))"


# A disk on which the table alone has no more room.
FULL = f"""
import os
write = os.write
def written(file, data):
    if not os.readlink(f"/proc/self/fd/{{file}}").endswith("table.csv"):
        return write(file, data)
    left = SIZE - os.fstat(file).st_size
    if left <= 0:
        raise OSError({errno.ENOSPC}, os.strerror({errno.ENOSPC}))
    return write(file, data[:left])
os.write = written
"""


@pytest.mark.parametrize(
    ("size", "is_real"),
    [(0, False), (20, False), (12_011, False), (12_000, True), (12_011, True), (20_000, True)],
)
def test_a_full_disk(size: int, is_real: bool) -> None:
    """It is told, the table has whole lines, and the next run goes on after them."""
    # The problem, which is copied for the program, has room.
    assert Path("net.max").stat().st_size < size or not is_real
    why = "File too large" if is_real else "No space left on device"
    ran = run_tool(
        *INTO_TABLE, before=room_for(size) if is_real else FULL.replace("SIZE", str(size))
    )
    assert (ran.returncode, ran.stderr) == (4, f"dmf-sweep: cannot write table.csv: {why}\n")
    text = Path("table.csv").read_bytes()
    assert len(text) <= size and (text.endswith(b"\n") or not text)
    assert run_tool(*INTO_TABLE).returncode == 0
    judge_table()


def test_a_table_that_cannot_be_written() -> None:
    Path("table.csv").mkdir()
    no_file = (
        "dmf-sweep: {} is not a regular file, so no sweep can go on in it; without --table the "
        "table goes to standard output\n"
    )
    os.mkfifo("pipe")
    for path in "table.csv", "/dev/full", "/dev/zero", "pipe":
        ran = run_tool(*INTO_TABLE[:-1], path)
        assert (ran.returncode, ran.stdout, ran.stderr) == (4, "", no_file.format(path))
    ran = run_tool(*INTO_TABLE[:-1], "missing/table.csv")
    assert (ran.returncode, ran.stderr) == (
        4,
        "dmf-sweep: cannot write missing/table.csv: No such file or directory\n",
    )


def test_empty_words() -> None:
    """They name files that are not there, and are not taken for words that were left out."""
    for words, told in [
        (["--cases", ""], "cannot read : No such file or directory"),
        (["--close-each", "--table", ""], "cannot write : No such file or directory"),
    ]:
        ran = run_tool("net.max", *words)
        assert (ran.returncode, ran.stdout, ran.stderr) == (4, "", f"dmf-sweep: {told}\n")


def test_no_room_for_the_problem() -> None:
    """What cannot be written is no fault of the problem's file."""
    ran = run_tool("net.max", "--close-each", before=room_for(100))
    assert (ran.returncode, ran.stdout, "File too large" in ran.stderr) == (4, "", True)
    assert "cannot read" not in ran.stderr


def test_names_of_the_other_form() -> None:
    """A table has names of one form alone."""
    Path("net.max").write_text(
        "c arc 1 =1+2\nc arc 2 -x\np max 2 2\nn 1 s\nn 2 t\na 1 2 3\na 1 2 4\n"
    )
    forms: list[tuple[list[str], list[str], str]] = [
        ([], ["--raw-names"], "'=1+2"),
        (["--raw-names"], [], "=1+2"),
    ]
    for first, second, name in forms:
        Path("table.csv").unlink(missing_ok=True)
        assert run_tool(*INTO_TABLE, *first).returncode == 0
        text = Path("table.csv").read_text()
        assert text.splitlines()[1].startswith(f"1,close 1,{name},4,-3,,")
        Path("table.csv").write_text("".join(text.splitlines(keepends=True)[:2]))
        ran = run_tool(*INTO_TABLE, *second)
        told = (
            "dmf-sweep: table.csv has names in another form: only one of the two runs has "
            "--raw-names\n"
        )
        assert (ran.returncode, ran.stderr) == (3, told)
        assert run_tool(*INTO_TABLE, *first).returncode == 0
        assert Path("table.csv").read_text() == text
