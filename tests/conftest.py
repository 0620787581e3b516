"""What pytest is told for all tests: where they run, what they share, in which order they begin,
and the line that ends them."""

from __future__ import annotations

import fcntl
import os
import shutil
import subprocess
import sys
from collections.abc import Iterator
from contextlib import contextmanager, nullcontext
from functools import partial
from itertools import islice
from pathlib import Path
from typing import Any, NamedTuple

import board_pages
import built
import pytest
from _pytest.terminal import TerminalReporter
from failures import failed_reports, reason, run_again
from hypothesis import HealthCheck, settings
from hypothesis.database import DirectoryBasedExampleDatabase
from kept import FOUND_FILE, shown_cases, with_cases
from nested import run_pytest
from sources import judged_at_once
from tool_runs import Tools

pytest_plugins = ["both_ways"]
ROOT = Path(__file__).resolve().parent.parent
# So many seeded random cases are tried in the gate, and by --long; a test tries a batch of them.
# Hypothesis tries so many in each of its tests, or one for so many seeded cases where --cases tells
# how many those are.
GATE_CASES, LONG_CASES, BATCH = 6_000, 600_000, 50
GATE_DRAWN, LONG_DRAWN, CASES_A_DRAWN = 120, 100_000, 50
BUILT = Path(built.BUILT)


def pytest_addoption(parser: pytest.Parser) -> None:
    parser.addoption(
        "--long",
        action="store_true",
        help="try many more random cases, and faults in copies of the program",
    )
    parser.addoption("--cases", type=int, default=0, help="try so many seeded random cases")
    parser.addoption("--seed", type=int, default=1, help="of random cases")
    parser.addoption("--write", action="store_true", help="rewrite the files that tests compare")
    parser.addoption(
        "--again",
        action="store_true",
        help="run each test that failed once more, alone, and count that run",
    )


def set_drawn(config: pytest.Config) -> None:
    """Sets which cases hypothesis draws: the same ones each time in the gate, and others each time
    by hand. How long that takes is judged by nobody."""
    settings.register_profile(
        "untimed", deadline=None, suppress_health_check=[HealthCheck.too_slow], print_blob=True
    )
    untimed = settings.get_profile("untimed")
    if config.getoption("--long") or config.getoption("--cases"):
        cases = int(config.getoption("--cases"))
        count = -(-cases // CASES_A_DRAWN) or LONG_DRAWN
        database = DirectoryBasedExampleDatabase(str(ROOT / ".hypothesis"))
        settings.register_profile("chosen", untimed, max_examples=count, database=database)
    else:
        settings.register_profile(
            "chosen", untimed, max_examples=GATE_DRAWN, derandomize=True, database=None
        )
    settings.load_profile("chosen")


def batches(config: pytest.Config) -> int:
    """How many tests try a batch of seeded cases."""
    count = config.getoption("--cases") or (
        LONG_CASES if config.getoption("--long") else GATE_CASES
    )
    return -(-int(count) // BATCH)


def pytest_configure(config: pytest.Config) -> None:
    """Goes to the root, and has the program there before the workers begin. What is called as
    `python3`, as the tools are, is the Python that runs the tests."""
    os.chdir(ROOT)
    os.environ["PATH"] = os.pathsep.join([os.path.dirname(sys.executable), os.environ["PATH"]])
    set_drawn(config)
    if (
        not hasattr(config, "workerinput")
        and not config.option.collectonly
        and "DMF_BUILT" not in os.environ
    ):
        take_program(config)


def take_program(config: pytest.Config) -> None:
    """Has `./dmf` take the program of prebuilt/, or build it. That takes minutes, and so what
    `./dmf` says before it begins is shown at once."""
    capturing = config.pluginmanager.get_plugin("capturemanager")
    with capturing.global_and_fixture_disabled() if capturing else nullcontext():
        ran = subprocess.run(
            ["./dmf", "--version"], stdin=subprocess.DEVNULL, stdout=subprocess.DEVNULL
        )
    if ran.returncode != 0:
        pytest.exit("the program is not built; DMF_BUILT=FILE tests another one", returncode=3)


def seconds(item: pytest.Item) -> float:
    marker = item.get_closest_marker("seconds")
    return float(marker.args[0]) if marker else 0


def dealt(items: list[pytest.Item], workers: int) -> list[pytest.Item]:
    """The tests in an order in which each worker begins with its share of the long ones:
    pytest-xdist gives each at first the next of a quarter of its share."""
    longest = sorted(filter(seconds, items), key=seconds, reverse=True)
    others = iter([item for item in items if not seconds(item)])
    size = max(len(items) // (4 * workers), 2)
    order: list[pytest.Item] = []
    for worker in range(workers):
        batch = longest[worker::workers]
        batch += islice(others, max(size - len(batch), 0))
        order += batch
    order += others
    assert len(order) == len(items)
    return order


def left_out(config: pytest.Config) -> set[str]:
    """The marks of tests that are not run: long ones without --long, and those that act as another
    user where root does not run them."""
    return {
        mark
        for mark, runs in (("long", config.getoption("--long")), ("root", os.geteuid() == 0))
        if not runs
    }


def pytest_collection_modifyitems(config: pytest.Config, items: list[pytest.Item]) -> None:
    out = [item for item in items if any(map(item.get_closest_marker, left_out(config)))]
    config.hook.pytest_deselected(items=out)
    items[:] = dealt(
        [item for item in items if item not in out],
        int(os.environ.get("PYTEST_XDIST_WORKER_COUNT", "1")),
    )


@pytest.hookimpl(hookwrapper=True, tryfirst=True)  # type: ignore[misc]
def pytest_sessionfinish(session: pytest.Session) -> Iterator[None]:
    """Keeps the shortest cases that failed, and ends with a line for each test that failed and the
    line 'N passed, M failed', in which a script counts for each of its cases, and a skipped test as
    one that failed. A worker of pytest-xdist, which knows its own tests alone, does none of this.
    """
    yield
    reporter = session.config.pluginmanager.get_plugin("terminalreporter")
    if reporter is None or hasattr(session.config, "workerinput"):
        return
    keep_found(reporter)
    has_failed = session.exitstatus == pytest.ExitCode.TESTS_FAILED
    passed_alone: list[str] = []
    if has_failed and session.config.getoption("--again"):
        passed_alone = run_again(reporter, partial(run_alone, session.config))
    passed, failed = counted(reporter)
    if failed and session.exitstatus == pytest.ExitCode.OK:
        session.exitstatus = pytest.ExitCode.TESTS_FAILED
    elif passed_alone and not failed:
        session.exitstatus = pytest.ExitCode.OK
    for report in [*failed_reports(reporter), *reporter.stats.get("skipped", [])]:
        reporter.write_line(f"failed: {report.nodeid}: {reason(report)}")
    reporter.write_line(f"{passed} passed, {failed} failed")


def run_alone(config: pytest.Config, test: str) -> subprocess.CompletedProcess[str]:
    """Runs a test with the same random cases, and with nothing beside it."""
    words = [f"--{name}={config.getoption(name)}" for name in ("seed", "cases")]
    words += ["--long"] if config.getoption("long") else []
    return run_pytest(*words, test, folder=ROOT)


def keep_found(reporter: TerminalReporter) -> None:
    """Keeps the shortest cases that failed."""
    reporter.ensure_newline()
    shown = shown_cases(report.longreprtext for report in reporter.stats.get("failed", []))
    if shown:
        FOUND_FILE.write_text(with_cases(FOUND_FILE.read_text(), shown))
        reporter.write_line(f"{FOUND_FILE.relative_to(ROOT)} keeps {len(shown)} cases that failed")


def counted(reporter: TerminalReporter) -> tuple[int, int]:
    """How many tests and cases of scripts passed and failed. Writes lines on what else is to be
    told."""
    stats = reporter.stats
    passed = len(stats.get("passed", []))
    failed = sum(len(stats.get(how, [])) for how in ("failed", "error", "skipped"))
    for report in stats.get("passed", []) + stats.get("failed", []):
        told = dict(report.user_properties)
        if "cases" in told:
            ran, wrong = told["cases"]
            # The script itself was counted as one.
            passed += ran - (report.outcome == "passed")
            failed += max(wrong, 1) - 1 if report.outcome == "failed" else 0
    unmet = [
        set(it[1])
        for report in stats.get("passed", [])
        for it in report.user_properties
        if it[0] == "unmet"
    ]
    if len(unmet) >= GATE_CASES // BATCH and set.intersection(*unmet):
        failed += 1
        reporter.write_line(f"failed: no random case meets {sorted(set.intersection(*unmet))}")
    if "root" in left_out(reporter.config):
        reporter.write_line("not run, since only root can: the tests that act as another user")
    return passed, failed


@contextmanager
def shared(factory: pytest.TempPathFactory, name: str) -> Iterator[Path]:
    """A path that all workers have in common, for one of them at a time: the first makes what is to
    be there."""
    base = factory.getbasetemp()
    folder = base.parent if "PYTEST_XDIST_WORKER" in os.environ else base
    with open(folder / f"{name}.lock", "w") as lock:
        fcntl.flock(lock, fcntl.LOCK_EX)
        yield folder / name


@pytest.fixture(scope="session")
def installed(tmp_path_factory: pytest.TempPathFactory) -> Path:
    """Where all is installed."""
    with shared(tmp_path_factory, "installed") as folder:
        if not folder.exists():
            subprocess.run([ROOT / "install", "--prefix", folder], capture_output=True, check=True)
    return folder


def preloaded(factory: pytest.TempPathFactory, name: str) -> str:
    """Return the library of a C file of tests/, which is made to be preloaded."""
    with shared(factory, f"{name}.so") as library:
        if not library.exists():
            source = ROOT / "tests" / f"{name}.c"
            subprocess.run(
                ["gcc", "-shared", "-fPIC", "-O1", "-Wall", "-Wextra", "-o", library, source],
                check=True,
            )
    return str(library)


@pytest.fixture(scope="session")
def faults(tmp_path_factory: pytest.TempPathFactory) -> str:
    """The library that refuses memory, and lets reads and writes fail."""
    return preloaded(tmp_path_factory, "faults")


@pytest.fixture(scope="session")
def refusing_heap(tmp_path_factory: pytest.TempPathFactory) -> str:
    """The library that refuses memory to the C library alone."""
    return preloaded(tmp_path_factory, "refusing_heap")


@pytest.fixture(scope="session")
def interrupts(tmp_path_factory: pytest.TempPathFactory) -> str:
    """The library that interrupts calls to the system."""
    return preloaded(tmp_path_factory, "interrupts")


class Types(NamedTuple):
    """What mypy says of all Python here, and the folder of what it has read, which makes each
    further call of it quick."""

    said: str
    cache: Path


def said_by_mypy(cache: Path) -> str:
    mypy = [sys.executable, "-m", "mypy", "--no-error-summary", f"--cache-dir={cache}"]
    calls = (
        subprocess.run([*mypy, *words], cwd=ROOT, capture_output=True, text=True)
        for words in judged_at_once()
    )
    return "".join(ran.stdout + ran.stderr for ran in calls)


@pytest.fixture(scope="session")
def types(tmp_path_factory: pytest.TempPathFactory) -> Types:
    cache = ROOT / ".mypy_cache"
    with shared(tmp_path_factory, "types") as said:
        if not said.exists():
            text = said_by_mypy(cache)
            if text:
                # What was kept may be of packages that are not there any more, of which mypy then
                # tells faults.
                shutil.rmtree(cache, ignore_errors=True)
                text = said_by_mypy(cache)
            said.write_text(text)
        return Types(said.read_text(), cache)


@pytest.fixture
def writes(request: pytest.FixtureRequest) -> bool:
    """Whether files that are made from others are rewritten."""
    return bool(request.config.getoption("--write"))


@pytest.fixture(scope="session")
def tools() -> Iterator[Tools]:
    """What runs the tools in Python."""
    tools = Tools()
    yield tools
    tools.close()


@pytest.fixture(scope="session")
def case_room(tmp_path_factory: pytest.TempPathFactory) -> Path:
    """A folder for the files of cases, with a folder in it that is no problem."""
    room = tmp_path_factory.mktemp("cases")
    (room / "folder").mkdir()
    return room


@pytest.fixture
def case_folder(case_room: Path) -> Iterator[Path]:
    """The folder for the files of cases, in which the test runs."""
    os.chdir(case_room)
    yield case_room
    os.chdir(ROOT)


@pytest.fixture(scope="module")
def driver() -> Iterator[Any]:
    """A headless browser."""
    yield from board_pages.browser()
