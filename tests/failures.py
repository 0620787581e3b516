"""What failed in a run of pytest: why, and whether it fails alone, too."""

from __future__ import annotations

import subprocess
from collections.abc import Callable

import pytest
from _pytest.terminal import TerminalReporter

# If more tests failed, it is not because the machine was busy.
MOST_AGAIN = 20
LONGEST_REASON = 300


def failed_reports(reporter: TerminalReporter) -> list[pytest.TestReport]:
    """What was reported of tests that failed, or before or after which something failed."""
    return [report for how in ("failed", "error") for report in reporter.stats.get(how, [])]


def reason(report: pytest.TestReport) -> str:
    """Why a test failed or was skipped, in one line."""
    crash = getattr(report.longrepr, "reprcrash", None)
    text = str(crash.message if crash else report.longreprtext)
    return text.partition("\n")[0][:LONGEST_REASON] or "no reason is told"


def run_again(
    reporter: TerminalReporter, run_alone: Callable[[str], subprocess.CompletedProcess[str]]
) -> list[str]:
    """Runs each test that failed once more, alone, and gives those that pass: beside others they
    may have failed because these took their processor. If a test passes, a line says so, and it
    counts as passed; if it fails again, its output is shown."""
    tests = {report.nodeid for report in failed_reports(reporter)}
    passed: list[str] = []
    for test in sorted(tests) if len(tests) <= MOST_AGAIN else []:
        ran = run_alone(test)
        if ran.returncode == 0:
            reporter.write_line(f"failed beside other tests, and passed alone: {test}")
            count_as_passed(reporter, test)
            passed.append(test)
        else:
            reporter.write_line(f"failed alone, too: {test}\n{ran.stdout}{ran.stderr}")
    return passed


def count_as_passed(reporter: TerminalReporter, test: str) -> None:
    """Replaces all that was reported of a test by one report that it passed."""
    passed = next(report for report in failed_reports(reporter) if report.nodeid == test)
    for how, reports in reporter.stats.items():
        reporter.stats[how] = [it for it in reports if getattr(it, "nodeid", "") != test]
    passed.outcome = "passed"
    # A script that failed counted only some of its cases.
    passed.user_properties = [it for it in passed.user_properties if it[0] != "cases"]
    reporter.stats.setdefault("passed", []).append(passed)
