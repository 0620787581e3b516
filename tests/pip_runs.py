"""The package as pip installs it: calls of pip, and of the commands of the environment."""

from __future__ import annotations

import re
import subprocess
import sys
from pathlib import Path

from limits import SECONDS

BUILD = "import build_wheel, sys; print(build_wheel.{}(sys.argv[1]))"


def build(
    folder: Path, target: Path, what: str = "build_wheel", check: bool = True, **environment: str
) -> subprocess.CompletedProcess[str]:
    """Calls a hook of the backend as pip does, without the toolchain."""
    target.mkdir(exist_ok=True)
    words = [sys.executable, "-c", BUILD.format(what), str(target)]
    plain = {"PATH": "/usr/bin:/bin", **environment}
    return subprocess.run(
        words, cwd=folder, env=plain, capture_output=True, text=True, timeout=SECONDS, check=check
    )


def pip_install(environment: Path, *words: object) -> None:
    pip = [
        str(environment / "bin/python"),
        "-m",
        "pip",
        "install",
        "--no-index",
        "--quiet",
        "--no-cache-dir",
    ]
    variables = {
        "PATH": "/usr/bin:/bin",
        "HOME": str(environment),
        "PIP_DISABLE_PIP_VERSION_CHECK": "1",
    }
    ran = subprocess.run(
        [*pip, *map(str, words)], env=variables, capture_output=True, text=True, timeout=SECONDS
    )
    assert ran.returncode == 0, ran.stdout + ran.stderr


def call(folder: Path, *words: object, given: str = "") -> subprocess.CompletedProcess[str]:
    """Runs a command of the environment, where there is neither the toolchain nor another dmf."""
    variables = {
        "PATH": f"{folder}/environment/bin:/usr/bin:/bin",
        "HOME": str(folder),
        "LC_ALL": "C.UTF-8",
    }
    return subprocess.run(
        [*map(str, words)],
        cwd=folder,
        env=variables,
        input=given,
        capture_output=True,
        text=True,
        timeout=SECONDS,
    )


# What a tool tells of the columns of a table that it reads.
TOLD = re.compile(r"dmf-\w+: (?:there are no titles: )?from .+, to .+, capacity .+\n")


def out(folder: Path, *words: object, given: str = "") -> str:
    """What a command writes that has to end well, and tells at most how a table was read."""
    ran = call(folder, *words, given=given)
    told = TOLD.sub("", ran.stderr, count=1)
    assert (ran.returncode, told) == (0, ""), f"{words}: {ran.stdout}{ran.stderr}"
    return ran.stdout


def own(folder: Path) -> Path:
    (found,) = (folder / "environment").glob("lib/python3*/site-packages/dmf/bin/dmf")
    return found
