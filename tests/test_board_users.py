"""dmf-board among other users of the machine: nobody else reads the board's address, keeps its
planner out or takes its port."""

from __future__ import annotations

import contextlib
import os
import resource
import signal
import socket
import subprocess
import time
from collections.abc import Callable, Iterator
from pathlib import Path
from urllib.parse import urlsplit

import pytest
from board_running import Board, board
from built import heed_interrupts
from desk_shared import PIPES, ROOT, run
from limits import SECONDS

# Who others are, in these tests: nobody, on most systems.
NOBODY = 65_534


def as_nobody(script: str, *words: object) -> subprocess.Popen[str]:
    """A script in Python that another user runs. It says what it found, and may wait for a line."""
    pipe = subprocess.PIPE
    return subprocess.Popen(
        ["/usr/bin/python3", "-c", script, *map(str, words)],
        stdin=pipe,
        stdout=pipe,
        text=True,
        cwd="/",
        user=NOBODY,
        group=NOBODY,
        extra_groups=[],
    )


@contextlib.contextmanager
def another(script: str, *words: object) -> Iterator[str]:
    """What such a script says in its first line. It goes on until the block ends."""
    with as_nobody(script, *words) as process:
        assert process.stdin and process.stdout
        try:
            yield process.stdout.readline().strip()
        finally:
            process.kill()


# Looks for a word in what processes show of themselves, and tries to read a file.
LOOK = """
import glob, sys
word, file = sys.argv[1:]
found = []
for path in glob.glob("/proc/[0-9]*/task/[0-9]*/cmdline") + glob.glob("/proc/[0-9]*/environ"):
    try:
        is_other = "/%d/" % __import__("os").getpid() not in path
        found += [path] * (word.encode() in open(path, "rb").read() and is_other)
    except OSError:
        pass
try:
    found.append(open(file).read())
except OSError as error:
    found.append(type(error).__name__)
print(found, flush=True)
"""


@contextlib.contextmanager
def opened(folder: Path) -> Iterator[tuple[str, str]]:
    """The address of a board, and the one that its browser was given, while both run."""
    browser = folder / "browser"
    os.mkfifo(folder / "opened")
    browser.write_text(f'#!/bin/sh\nexec >/dev/null 2>&1\necho "$1" >{folder}/opened\nsleep 5\n')
    browser.chmod(0o755)
    pipe = subprocess.PIPE
    words = [str(ROOT / "tools/dmf-board"), PIPES]
    environment = {**os.environ, "DISPLAY": ":99", "BROWSER": str(browser)}
    with subprocess.Popen(
        words,
        stdout=pipe,
        stderr=pipe,
        text=True,
        cwd=ROOT,
        env=environment,
        preexec_fn=heed_interrupts,
    ) as process:
        try:
            assert process.stdout
            yield process.stdout.readline().strip(), (folder / "opened").read_text().strip()
        finally:
            process.send_signal(signal.SIGINT)


def test_opening(tmp_path: Path) -> None:
    """The browser is started with a file that leads to the page, which its user alone may read, and
    which is removed at the end."""
    with opened(tmp_path) as (address, given):
        door = Path(urlsplit(given).path)
        assert given == door.as_uri() and urlsplit(address).path.strip("/") not in given
        assert (door.stat().st_mode & 0o777, door.parent.stat().st_mode & 0o777) == (0o600, 0o700)
        assert f'content="0; url={address}"' in door.read_text()
    assert not door.parent.exists()


@pytest.mark.root
def test_opening_to_others(tmp_path: Path) -> None:
    """Nothing that another user can read of any process has the token, and they cannot read the
    file."""
    with opened(tmp_path) as (address, given), another(
        LOOK, urlsplit(address).path.strip("/"), urlsplit(given).path
    ) as found:
        assert found == "['PermissionError']"
    # It would see the token among the words of a process.
    with subprocess.Popen(["sleep", "60", "0.0000000123"]) as process:
        with another(LOOK, "0.0000000123", "/nowhere") as found:
            assert str(process.pid) in found
        process.kill()


# Opens many connections, sends a whole request or part of one on each, and waits. On a third of
# them it then sends a byte ten times a second.
CROWD = """
import socket, sys, time
count, port = int(sys.argv[1]), int(sys.argv[2])
held = []
for _ in range(count):
    try:
        held.append(socket.create_connection(("127.0.0.1", port), 2))
        held[-1].send(b"GET /" if len(held) % 2 else b"GET / HTTP/1.1\\r\\n\\r\\n")
    except OSError:
        pass
print(len(held), flush=True)
for _ in range(600):
    for one in held[::3]:
        try:
            one.send(b"x")
        except OSError:
            pass
    time.sleep(0.1)
"""


def held_by(it: Board, kind: str) -> int:
    """How many files (`fd`) or threads (`task`) a board has."""
    return len(list(Path(f"/proc/{it.process.pid}/{kind}").iterdir()))


def wait_until(is_so: Callable[[], bool], or_else: str) -> None:
    until = time.monotonic() + SECONDS
    while not is_so():
        assert time.monotonic() < until, or_else
        time.sleep(0.05)


def ports_held(port: int) -> int:
    """How many ports another user's ends of connections to a port have."""
    rows = [line.split() for line in Path("/proc/net/tcp").read_text().splitlines()[1:]]
    return sum(row[2] == f"0100007F:{port:04X}" and row[7] == str(NOBODY) for row in rows)


@pytest.mark.root
@pytest.mark.seconds(8)
def test_crowd() -> None:
    """A thousand idle connections of another user keep no page out, and the board holds a few of
    them, for some seconds."""
    with board(PIPES) as it:
        with another(CROWD, 1_000, it.port) as held:
            assert int(held) > 0
            for _ in range(20):
                assert it.state()["value"] == "165"
            # What ended last may not have been cleared away yet.
            wait_until(
                lambda: held_by(it, "fd") < 50 and held_by(it, "task") < 50,
                "the board holds more than a few strangers",
            )
            # Those that send a byte now and then may not stay either, and hold no port of this
            # machine.
            wait_until(
                lambda: held_by(it, "task") <= 4 and not ports_held(it.port), "strangers stay"
            )


# Comes and goes as often as it can, for some seconds.
FLOOD = """
import socket, sys, time
until = time.monotonic() + 4
print("begun", flush=True)
while time.monotonic() < until:
    try:
        with socket.create_connection(("127.0.0.1", int(sys.argv[1])), 2) as one:
            one.send(b"GET / HTTP/1.1\\r\\n\\r\\n")
    except OSError:
        pass
"""


def is_asleep(thread: int) -> bool:
    return Path(f"/proc/{thread}/stat").read_text().rpartition(") ")[2].startswith("S")


@pytest.mark.root
@pytest.mark.seconds(5)
def test_flood() -> None:
    """A page gets in also while another user comes as often as possible."""
    with board(PIPES) as it:
        with another(FLOOD, it.port):
            for _ in range(20):
                assert it.state()["value"] == "165"


def test_no_file_left() -> None:
    """Where the board has no file left for another connection, it waits for one, and spends no
    processor."""

    def limit_files() -> None:
        heed_interrupts()
        resource.setrlimit(resource.RLIMIT_NOFILE, (40, 40))

    with board(PIPES, preexec=limit_files) as it:
        pages = []
        for _ in range(60):
            pages.append(socket.create_connection(("127.0.0.1", it.port), SECONDS))
            pages[-1].sendall(f"GET {it.root}life HTTP/1.1\r\nHost: {it.host}\r\n\r\n".encode())
        wait_until(lambda: held_by(it, "fd") >= 39, "the board has files left")
        # The thread that takes connections sleeps most of the time. One that tried again at once
        # would do so at no time.
        asleep = 0
        for _ in range(100):
            time.sleep(0.02)
            asleep += is_asleep(it.process.pid)
        assert asleep > 50, f"it sleeps at {asleep} of 100 looks"
        for page in pages[1:]:
            page.close()
        assert it.state()["value"] == "165"


# Tries to listen where a browser might look for `localhost`.
LISTEN = """
import socket, sys
taken = []
V4, V6 = socket.AF_INET, socket.AF_INET6
for family, host in (V6, "::1"), (V6, "::"), (V4, "0.0.0.0"), (V4, "127.0.0.1"):
    with socket.socket(family) as one:
        one.setsockopt(socket.SOL_SOCKET, socket.SO_REUSEADDR, 1)
        if hasattr(socket, "SO_REUSEPORT"):
            one.setsockopt(socket.SOL_SOCKET, socket.SO_REUSEPORT, 1)
        if family == socket.AF_INET6 and sys.argv[2] == "6":
            one.setsockopt(socket.IPPROTO_IPV6, socket.IPV6_V6ONLY, 1)
        try:
            one.bind((host, int(sys.argv[1])))
            one.listen()
            taken.append(host)
        except OSError:
            pass
print(taken, flush=True)
"""


@pytest.mark.root
def test_port_is_taken() -> None:
    """Nobody else can listen at the board's port, under any name of this machine."""
    with board(PIPES) as it:
        for only in 4, 6:
            with another(LISTEN, it.port, only) as taken:
                assert taken == "[]"


def test_taken_port() -> None:
    """A board begins at no port where somebody else listens, under any name of this machine."""
    for family, host in (socket.AF_INET, "127.0.0.1"), (socket.AF_INET6, "::1"):
        with socket.socket(family) as other:
            try:
                other.bind((host, 0))
            except OSError:
                # This machine has no such address.
                continue
            other.listen()
            ran = run("dmf-board", "--no-browser", "--port", str(other.getsockname()[1]), PIPES)
            assert (ran.returncode, ran.stdout, "cannot listen on port" in ran.stderr) == (
                4,
                "",
                True,
            ), ran
