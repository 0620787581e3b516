"""The report as a PDF: a browser prints it, if one is installed that can do so by itself."""

from __future__ import annotations

import os
import shutil
import signal
import subprocess
import tempfile
from pathlib import Path

from ..steps import DeskFault

# The names of its program; Debian has the first one, and its package has the same name.
BROWSERS = ("chromium", "chromium-browser", "google-chrome")
# The most time that it may take, in seconds.
PATIENCE = 60
MISSING = (
    "Chromium, which prints the report, is not installed (`apt install chromium`); the report as a "
    "page can be printed by any browser"
)


def browser() -> str:
    """Return the path of the program that prints, or nothing if none is installed."""
    return next(filter(None, map(shutil.which, BROWSERS)), "")


def printed(page: str) -> bytes:
    """Return a page as a PDF. Raise a `DeskFault` if there is no browser, or if it fails."""
    program = browser()
    if not program:
        raise DeskFault(MISSING)
    with tempfile.TemporaryDirectory() as name:
        folder = Path(name)
        made = folder / "report.pdf"
        (folder / "report.html").write_text(page, encoding="utf-8")
        words = [
            program,
            "--headless",
            "--disable-gpu",
            # A browser that runs already would open the page in its own window.
            f"--user-data-dir={folder / 'profile'}",
            # It refuses to run with its sandbox as root.
            *["--no-sandbox"] * (os.geteuid() == 0),
            "--no-pdf-header-footer",
            f"--print-to-pdf={made}",
            (folder / "report.html").as_uri(),
        ]
        _run(words, folder / "said")
        if not made.exists() or not made.stat().st_size:
            said = (folder / "said").read_text(errors="replace").strip().splitlines()
            raise DeskFault(
                f"{program} did not print the report: {(said or ['it said nothing'])[-1]}"
            )
        return made.read_bytes()


def _run(words: list[str], said: Path) -> None:
    """Run a program with its helpers until it ends, or end them all. Raise a `DeskFault` if it
    takes too long."""
    with open(said, "wb") as errors:
        process = subprocess.Popen(
            words,
            stdin=subprocess.DEVNULL,
            stdout=subprocess.DEVNULL,
            stderr=errors,
            start_new_session=True,
        )
        try:
            process.wait(PATIENCE)
        except BaseException as error:
            os.killpg(process.pid, signal.SIGKILL)
            process.wait()
            if isinstance(error, subprocess.TimeoutExpired):
                raise DeskFault(f"{words[0]} did not print within {PATIENCE} seconds") from None
            raise
