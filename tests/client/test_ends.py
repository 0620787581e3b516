"""How the program ends."""

import gc
import os
import signal
import subprocess
import sys
import tempfile
import threading
import time
from collections.abc import Callable

import pytest
from client_shared import CLIENT, PIPES, dmf, is_running, pipes, process_of
from limits import SECONDS


def test_it_ends() -> None:
    with pipes() as network:
        process = process_of(network)
        assert process.poll() is None
    assert process.returncode == 0
    with pytest.raises(dmf.SessionEnded):
        network.solve()
    network.end()


def test_nothing_refers_to_it() -> None:
    network = pipes()
    process = process_of(network)
    del network
    gc.collect()
    assert process.returncode == 0


def test_the_interpreter_ends() -> None:
    for last in "", "raise SystemExit(3)", "network.loop = network":
        script = (
            "import dmf\nnetwork = dmf.Network([('a', 'b', 1)], 'a', 'b')\n"
            f"print(network._session.process.pid)\n{last}"
        )
        environment = {**os.environ, "PYTHONPATH": CLIENT}
        ran = subprocess.run(
            [sys.executable, "-c", script],
            env=environment,
            capture_output=True,
            text=True,
            timeout=SECONDS,
        )
        assert (ran.returncode, ran.stderr) == (3 if "3" in last else 0, "")
        assert not is_running(int(ran.stdout))


def test_it_is_killed() -> None:
    commands: list[Callable[[dmf.Network[str]], object]] = [
        lambda network: network.solve(),
        lambda network: network.cap(("lake", "mill"), 1),
    ]
    for command in commands:
        with pipes() as network:
            process_of(network).kill()
            process_of(network).wait()
            for _ in range(2):
                with pytest.raises(dmf.SessionEnded, match="^dmf ended by the signal SIGKILL$"):
                    command(network)


def test_it_is_killed_while_it_answers() -> None:
    with dmf.Network([(node, node + 1, 1) for node in range(100_000)], 0, 100_000) as network:
        process = process_of(network)
        os.kill(process.pid, signal.SIGSTOP)
        threading.Timer(0.2, process.kill).start()
        with pytest.raises(dmf.SessionEnded, match="SIGKILL"):
            network.solve()


def test_it_is_ended_while_it_stands_still() -> None:
    network = pipes()
    process = process_of(network)
    os.kill(process.pid, signal.SIGSTOP)
    network.end()
    assert process.returncode == -signal.SIGKILL


def test_a_forked_process_leaves_it_alone() -> None:
    with pipes() as network:
        child = os.fork()
        if child == 0:
            network._session.end()
            os._exit(0)
        os.waitpid(child, 0)
        assert network.solve().value == 5


def test_nothing_is_left_behind() -> None:
    with tempfile.TemporaryDirectory() as folder:
        before, tempfile.tempdir = tempfile.tempdir, folder
        try:
            with pipes():
                assert os.listdir(folder) == []
            with pytest.raises(dmf.Refused):
                dmf.Network(PIPES, "lake", "lake")
            assert os.listdir(folder) == []
        finally:
            tempfile.tempdir = before


def test_many_at_once() -> None:
    networks = [pipes() for _ in range(20)]
    for turn in range(3):
        assert [network.cap(("mill", "sea"), turn) for network in networks] == [0] * 20
    for network in networks:
        network.end()


def test_much_is_answered() -> None:
    length = 60_000
    began = time.monotonic()
    with dmf.Network([(node, node + 1, 10**14) for node in range(length)], 0, length) as network:
        plan = network.solve()
        assert (plan.value, len(plan), set(plan.values())) == (10**14, length, {10**14})
        assert len(network.problem().splitlines()) == 2 * length + 4
        assert network.cap((length - 1, length), 5) == 5
        assert len(network.cut().side) == length
    assert time.monotonic() - began < SECONDS
