"""Compares solves by any greatest flow (`dmf solve --brief` and `--any`) with ordinary ones: on
networks of each family of the benchmark, on the examples, and on random ones. On the families the
ordinary search is seen to find no path after the engine. `--long` tries 100,000 random networks. An
interrupt in the engine's work ends a run with nothing written."""

from __future__ import annotations

import os
import signal
import subprocess
import time
from collections.abc import Callable, Iterator
from pathlib import Path
from random import Random

import built
import pytest
from built import PROBLEM, Case
from conftest import BUILT, ROOT
from limits import SECONDS
from make_network import problem_of
from oracle.problem import read_problem
from oracle.program import AnySolution
from oracle.texts import LineFault
from program.test_named_networks import NETWORKS
from random_cases import fitting, network, problem_lines
from random_texts import plain_text
from tool_runs import wait_until_read
from worked_forms import text

FAMILIES = (
    "grid",
    "random",
    "road",
    "street",
    "bip",
    "ac",
    "rmf-wide",
    "rmf-long",
    "wash-wide",
    "wash-long",
    "ak",
    "combs",
)
ARCS = 3000
FEW, MANY = 200, 100_000
Generate = Callable[[str, int], bytes]
# Longer than reading is silent after its first report, in seconds.
PAUSE = 0.4
CHAIN = b"p max 3 2\nn 1 s\nn 3 t\na 1 2 7\na 2 3 4\n"
# A comb of this many arcs keeps the engine busy for some 8 s of processor time. The signal comes
# after this many of them.
COMBED, WORKED = 60_000, 0.3


def solved(problem: bytes, *words: bytes) -> bytes:
    run = built.run(Case("a solve", (b"solve", *words), problem, problem))
    assert (run.status, run.err) == (0, b""), (words, run)
    return run.out


def parts(answer: bytes) -> tuple[bytes, bytes]:
    """The value that a solution tells, and the cut after it."""
    at = answer.index(b"c cut ")
    return answer.partition(b"\n")[0].removeprefix(b"s "), answer[at:]


def difference(problem: bytes) -> str | None:
    """What is wrong with the quick solves of a problem, if anything."""
    value, cut = parts(solved(problem, b"--cut"))
    if solved(problem, b"--brief", b"--cut") != b"c solve value " + value + b"\n" + cut:
        return "the value or its cut"
    answer = solved(problem, b"--any", b"--cut")
    if parts(answer) != (value, cut):
        return "the value or the cut of any flow"
    state = AnySolution(read_problem(problem), cut).state_of(answer)
    return None if state and state.value() == int(value) else "any flow is no flow"


@pytest.fixture(scope="module")
def generate(tmp_path_factory: pytest.TempPathFactory) -> Generate:
    """What makes a network of a family with so many arcs."""
    maker = tmp_path_factory.mktemp("families") / "generate"
    subprocess.run(
        ["g++", "-O1", "-std=c++17", "-o", maker, ROOT / "bench" / "generate.cpp"], check=True
    )
    return lambda family, arcs: subprocess.run(
        [maker, family, str(arcs), "1990"], capture_output=True, check=True
    ).stdout


@pytest.fixture(scope="module")
def generated(generate: Generate) -> dict[str, bytes]:
    """A network of each family by its name."""
    return {
        **{family: generate(family, ARCS) for family in FAMILIES},
        "levels": problem_of(32, 30, 3, 100, 7).encode(),
    }


@pytest.mark.seconds(5)
def test_families(generated: dict[str, bytes]) -> None:
    assert {family: difference(problem) for family, problem in generated.items()} == dict.fromkeys(
        generated
    )


@pytest.mark.parametrize("length", [1, 2, 7, 100])
def test_value_of_ak(generate: Generate, length: int) -> None:
    """Its ways out and its rungs carry 1 each, and are the only ways through."""
    problem = generate("ak", 6 * length + 7)
    assert problem.startswith(b"p max %d %d\n" % (4 * length + 6, 6 * length + 7))
    assert solved(problem, b"--brief") == b"c solve value %d\n" % (2 * length + 3)


@pytest.mark.parametrize(
    "file", [pytest.param(it, id=it.name) for it in sorted((ROOT / "examples").glob("*.max"))]
)
def test_examples(file: Path) -> None:
    assert difference(file.read_bytes()) is None


@pytest.mark.parametrize("name", NETWORKS)
def test_named_networks(name: str) -> None:
    network, _ = NETWORKS[name]
    assert difference(network if isinstance(network, bytes) else text(network)) is None


def place_in_input(process: int) -> int:
    """Return how far a process has read the file that is its standard input."""
    return int(Path(f"/proc/{process}/fdinfo/0").read_text().split()[1])


def processor_seconds(process: int) -> float:
    fields = Path(f"/proc/{process}/stat").read_text().rpartition(")")[2].split()
    return sum(map(int, fields[11:13])) / os.sysconf("SC_CLK_TCK")


def wait_until(holds: Callable[[], bool]) -> None:
    until = time.monotonic() + SECONDS
    while not holds():
        assert time.monotonic() < until, "the program does not work"
        time.sleep(0.01)


@pytest.mark.seconds(2)
@pytest.mark.parametrize("word", ["--brief", "--any"])
def test_interrupt(generate: Generate, word: str, tmp_path: Path) -> None:
    """The signal comes while the engine works, and ends the run before it has written anything."""
    file = tmp_path / "combs.max"
    file.write_bytes(generate("combs", COMBED))
    with file.open("rb") as problem:
        words = [str(BUILT), "solve", word, "--cut"]
        run = subprocess.Popen(
            words,
            stdin=problem,
            stdout=subprocess.PIPE,
            stderr=subprocess.PIPE,
            preexec_fn=built.heed_interrupts,
        )
    wait_until(lambda: place_in_input(run.pid) == file.stat().st_size)
    read = processor_seconds(run.pid)
    wait_until(lambda: processor_seconds(run.pid) > read + WORKED)
    run.send_signal(signal.SIGINT)
    out, err = run.communicate(timeout=SECONDS)
    assert (run.returncode, out, err) == (-signal.SIGINT, b"", b"")


def told(problems: dict[str, bytes], *words: str) -> dict[str, bytes]:
    """What runs tell by `--progress`, all at once. Each has read the text and waits for its end for
    a while, so that the first path is told."""
    runs = {}
    for name, problem in problems.items():
        run = subprocess.Popen(
            [BUILT, "solve", "--progress", *words],
            stdin=subprocess.PIPE,
            stdout=subprocess.DEVNULL,
            stderr=subprocess.PIPE,
        )
        assert run.stdin
        run.stdin.write(problem)
        run.stdin.flush()
        runs[name] = run
    for run in runs.values():
        wait_until_read(run)
    time.sleep(PAUSE)
    return {name: run.communicate(timeout=SECONDS)[1] for name, run in runs.items()}


@pytest.mark.seconds(4)
def test_no_path_is_left(generated: dict[str, bytes]) -> None:
    """An ordinary solve tells of a path, and one by the engine's flow of none: the ordinary plan
    answers never."""
    problems = {**generated, "a chain": CHAIN}
    assert {name: b"solving" in text for name, text in told(problems).items()} == dict.fromkeys(
        problems, True
    )
    for word in "--brief", "--any":
        assert {
            name: b"solving" in text for name, text in told(problems, word).items()
        } == dict.fromkeys(problems, False)


def random_problems(count: int, seed: str) -> Iterator[bytes]:
    """Problems without a fault."""
    for number in range(count):
        random = Random(f"{seed}/{number}")
        text = plain_text(problem_lines(fitting(network(random)), random))
        try:
            read_problem(text)
        except LineFault:
            continue
        yield text


@pytest.mark.seconds(2)
def test_random(request: pytest.FixtureRequest) -> None:
    count = MANY if request.config.getoption("--long") else FEW
    for problem in random_problems(count, f"quick {request.config.getoption('--seed')}"):
        wrong = difference(problem)
        assert wrong is None, (
            wrong,
            Case("a quick solve", (b"solve", b"--any", b"--cut"), PROBLEM, problem),
        )
