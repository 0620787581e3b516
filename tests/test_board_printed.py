"""The report of a board as a PDF: made where Chromium is installed, and what the page says where it
is not."""

from __future__ import annotations

import re
import subprocess
import time
from pathlib import Path
from typing import Any

import pytest
from board_pages import Page
from board_running import board
from desk_shared import PIPES
from dmf.desk.project import printed_report
from dmf.desk.steps import DeskFault
from limits import SECONDS
from test_board_access import as_before

pytestmark = pytest.mark.seconds(30)
A4 = (595, 842)


def test_printed(driver: Any, tmp_path: Path) -> None:
    """A click hands on a PDF of one or two sheets of A4, and nothing of the browser that made it
    runs on."""
    with board(PIPES) as it:
        page = Page(driver, it.address)
        page.click("#tab-steps")
        link = driver.find_element("id", "take-pdf")
        assert link.accessible_name == "Report to print (PDF)" and link.is_displayed()
        assert not driver.find_element("id", "report-told").is_displayed()
        words = {"behavior": "allow", "downloadPath": str(tmp_path)}
        driver.execute_cdp_cmd("Browser.setDownloadBehavior", words)
        link.click()
        page.wait(lambda: [*tmp_path.glob("*.pdf")])
        [file] = tmp_path.glob("*.pdf")
        made = file.read_bytes()
        assert made.startswith(b"%PDF-")
        boxes = re.findall(rb"/MediaBox \[0 0 ([0-9.]+) ([0-9.]+)\]", made)
        assert {(round(float(wide)), round(float(high))) for wide, high in boxes} == {A4}
        assert made.count(b"/Type /Page\n") <= 2
        assert not runs(str(it.process.pid), "print-to-pdf")
        status, _, told = it.ask(it.root + f"report.pdf?turn={it.turn() + 1}")
        assert status == 409 and b"another tab" in told
        as_before(driver)


def runs(pid: str, word: str) -> bool:
    """Whether a process of this one has a word in its command."""
    found = subprocess.run(
        ["ps", "-o", "args=", "--ppid", pid], stdout=subprocess.PIPE, text=True, check=False
    )
    return word in found.stdout


def test_none_is_installed(driver: Any, tmp_path: Path, monkeypatch: pytest.MonkeyPatch) -> None:
    """Where no such browser is installed, no PDF is offered, and the page says how to get one and
    which command installs it."""
    for program in Path("/usr/bin").iterdir():
        if not program.name.startswith(("chromium", "google-chrome")):
            (tmp_path / program.name).symlink_to(program)
    monkeypatch.setenv("PATH", str(tmp_path))
    with board(PIPES) as it:
        page = Page(driver, it.address)
        page.click("#tab-steps")
        assert not driver.find_element("id", "take-pdf").is_displayed()
        told = page.text("#report-told")
        assert "open it and print it" in told and "apt install chromium" in told
        status, _, said = it.ask(it.root + f"report.pdf?turn={it.turn()}")
        assert status == 409 and b"`apt install chromium`" in said
        as_before(driver)


def test_failures(tmp_path: Path, monkeypatch: pytest.MonkeyPatch) -> None:
    """A browser that fails or takes too long is a fault that says so, and is ended with its
    helpers."""
    program = tmp_path / "chromium"
    monkeypatch.setenv("PATH", f"{tmp_path}:/usr/bin:/bin")
    program.write_text("#!/bin/sh\necho 'no display' >&2\nexit 1\n")
    program.chmod(0o755)
    with pytest.raises(DeskFault, match="did not print the report: no display"):
        printed_report.printed("<p>x</p>")
    begun = tmp_path / "helper"
    program.write_text(
        f"#!/bin/sh\nsleep 3000 & echo $! > {begun}.part; mv {begun}.part {begun}\nsleep 3000\n"
    )
    wait = subprocess.Popen.wait

    def wait_for_helper(process: subprocess.Popen[bytes], patience: float | None = None) -> int:
        """The time is over once the helper has begun, however slow the machine is."""
        while patience and not begun.exists():
            time.sleep(0.01)
        return wait(process, 0.01 if patience else None)

    monkeypatch.setattr(subprocess.Popen, "wait", wait_for_helper)
    with pytest.raises(DeskFault, match="within 60 seconds"):
        printed_report.printed("<p>x</p>")
    words, until = Path(f"/proc/{begun.read_text().strip()}/cmdline"), time.monotonic() + SECONDS
    # A program that nobody has waited for yet has no words any more.
    while words.exists() and words.read_bytes():
        assert time.monotonic() < until, "the helper runs on"
        time.sleep(0.01)
