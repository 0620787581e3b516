"""Calls of programs in which neither the toolchain nor an installed dmf is found: of dpkg, of what
./package makes, and of the examples of a page."""

from __future__ import annotations

import re
import subprocess
from collections.abc import Iterator
from pathlib import Path

from conftest import ROOT

# What is written after each example.
END = "\x1e"


def run(
    *words: str | Path, folder: Path = ROOT, **environment: str
) -> subprocess.CompletedProcess[str]:
    """Runs a program where neither the toolchain nor an installed dmf is found."""
    plain = {"PATH": "/usr/bin:/bin", "HOME": str(folder), "LC_ALL": "C.UTF-8", **environment}
    return subprocess.run(
        words,
        cwd=folder,
        env=plain,
        stdin=subprocess.DEVNULL,
        capture_output=True,
        text=True,
        timeout=120,
    )


def ran(*words: str | Path, folder: Path = ROOT, **environment: str) -> str:
    """What a program writes that has to end well."""
    done = run(*words, folder=folder, **environment)
    assert done.returncode == 0, f"{words}: {done.stdout}{done.stderr}"
    return done.stdout


def the(folder: Path, pattern: str) -> Path:
    (found,) = folder.glob(pattern)
    return found


def call_dpkg(root: Path, *words: str | Path) -> None:
    """Puts or removes a package in a root that has nothing else, not even a shell: the package's
    scripts run outside."""
    database = root / "var/lib/dpkg"
    if not database.exists():
        for name in "info", "updates":
            (database / name).mkdir(parents=True)
        (database / "status").touch()
    force = "--force-depends,script-chrootless"
    ran("dpkg", f"--root={root}", force, *words, PATH="/usr/sbin:/usr/bin:/sbin:/bin")


def examples(page: Path) -> Iterator[tuple[str, str]]:
    """Each command of a page with what it is to write."""
    for found in re.finditer(
        r"^    \$ (.*)\n((?:    (?!\$ ).*\n)*)", page.read_text(), re.MULTILINE
    ):
        yield found[1], re.sub("^    ", "", found[2], flags=re.MULTILINE)


def judge_examples(page: Path, folder: Path, **environment: str) -> None:
    """Runs the examples of a page in a folder."""
    pairs = list(examples(page))
    assert len(pairs) > 5
    script = "".join(f"{command}\nprintf '{END}'\n" for command, _ in pairs)
    done = run("sh", "-c", script, folder=folder, PATH=f"{folder}:/usr/bin:/bin", **environment)
    for (command, wanted), written in zip(pairs, done.stdout.split(END)):
        assert written == wanted, f"{command}: {done.stderr}"
    told = [line for line in done.stderr.splitlines() if ": from 'from', to 'to'" not in line]
    assert (told, done.stdout.count(END)) == ([], len(pairs))
