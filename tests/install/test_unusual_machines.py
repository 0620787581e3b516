"""README's two commands where a machine, a clone or an environment is not the usual one: each
works, or says in a line what is missing."""

from __future__ import annotations

import os
import subprocess
from collections.abc import Callable, Iterator
from pathlib import Path
from tempfile import TemporaryDirectory
from typing import NamedTuple

import pytest
from limits import SECONDS
from trees import commit_all, copy_tracked

NOBODY = 65_534
PLAIN = {"PATH": "/usr/local/sbin:/usr/local/bin:/usr/sbin:/usr/bin:/sbin:/bin", "HOME": "/root"}
ANSWER = "s 5\nf 1 2 3\nf 1 3 2\nf 2 3 1\nf 2 4 2\nf 3 4 3\nc cut 5\nc side 1\n"
WELL = (0, "1 passed, 0 failed", "")
# A test that sees what each test of ./test has for surroundings.
SURROUNDINGS = '''import locale, os, subprocess, sys
from pathlib import Path


def test_surroundings() -> None:
    """The Python of Debian, UTF-8, files that others may read, a home, and none of the caller's
    variables."""
    assert sys.executable == "/usr/bin/python3" and sys.flags.utf8_mode == 0
    assert locale.getpreferredencoding() == "UTF-8" and sys.getfilesystemencoding() == "utf-8"
    words = ["python3", "-c", "print('M\\u00fchle')"]
    assert subprocess.run(words, capture_output=True).stdout == "M\\u00fchle\\n".encode()
    assert not {name for name in os.environ if name.startswith(("DMF_BUILT", "CI", "LANG", "XDG"))}
    home = Path.home()
    assert os.access(home, os.W_OK) and home.parent == Path(os.environ["TMPDIR"]).parent
    os.umask(before := os.umask(0))
    assert before == 0o022
    assert subprocess.run(["./dmf", "--version"], capture_output=True).returncode == 0
'''
# A system of packages that lacks one and reaches no source of them.
LACKING = {
    "dpkg-query": '#!/bin/sh\nfor last; do :; done\n[ "$last" = fish ] || echo installed\n',
    "apt-get": "#!/bin/sh\necho 'Reading package lists...'\necho 'E: Unable to fetch some "
    "archives' >&2\n"
    "exit 100\n",
}
INSTALLING = "test: installing 1 packages of Debian and what they need, which takes some minutes"
LACKS = "test: packages of Debian are missing: apt install fish"


class Place(NamedTuple):
    """A clone, a folder beside it for what a case puts first in PATH, and the caller."""

    clone: Path
    bin: Path
    home: Path

    def put(self, name: str, text: str) -> None:
        (self.bin / name).write_text(text)
        (self.bin / name).chmod(0o755)


class Case(NamedTuple):
    """What is unusual: it is set up by a call, in variables, or by who calls; and how ./dmf and
    ./test end: the status, the last line on standard output, and what stands on standard error."""

    name: str
    set_up: Callable[[Place], object] = lambda place: None
    variables: dict[str, str] = {}
    unset: str = ""
    by_nobody: bool = False
    umask: int = 0o022
    dmf: tuple[int, str, str] = (0, ANSWER, "")
    test: tuple[int, str, str] = WELL


def lack(place: Place) -> None:
    for name, text in LACKING.items():
        place.put(name, text)


def own(place: Place, user: int) -> None:
    """Gives the clone to a user, if root runs the tests."""
    if os.geteuid() == 0:
        subprocess.run(["chown", "-R", f"{user}:{user}", place.clone], check=True)


def own_and_lack(place: Place) -> None:
    own(place, NOBODY)
    lack(place)


def close(place: Place) -> None:
    place.clone.chmod(0o555)
    for folder in "crates/dmf", "crates/dmf/out":
        (place.clone / folder).chmod(0o555)


CASES = [
    Case("the usual"),
    Case("not root", set_up=lambda place: own(place, NOBODY), by_nobody=True),
    Case(
        "not root, and a package is missing",
        set_up=own_and_lack,
        by_nobody=True,
        test=(2, "", f"{LACKS}\n"),
    ),
    Case(
        "no network",
        set_up=lack,
        test=(2, INSTALLING, f"{LACKS} (E: Unable to fetch some archives)\n"),
    ),
    Case(
        "a read-only clone",
        set_up=close,
        by_nobody=True,
        test=(
            2,
            "",
            "test: {clone} cannot be written, and the tests write in it; clone it to another "
            "place\n",
        ),
    ),
    Case("no UTF-8", variables={"LC_ALL": "C", "LANG": "de_DE.ISO-8859-1"}),
    Case("a private umask", umask=0o077),
    Case("no HOME", unset="HOME"),
    Case(
        "another python3 first in PATH",
        set_up=lambda place: place.put("python3", "#!/bin/sh\necho another python3 >&2\nexit 9\n"),
    ),
    Case(
        "variables of a gate",
        variables={
            "CI": "true",
            "DMF_BUILT": "/bin/false",
            "PYTEST_ADDOPTS": "--no-such",
            "PYTHONPATH": "/nowhere",
        },
    ),
]


@pytest.fixture(scope="module")
def tree() -> Iterator[Path]:
    """A clone in a folder with a space in its path, which everybody may enter, with one test."""
    with TemporaryDirectory(prefix="a place ") as folder:
        os.chmod(folder, 0o755)
        clone = Path(folder) / "my clone"
        clone.mkdir()
        copy_tracked(clone)
        (clone / "tests/test_surroundings.py").write_text(SURROUNDINGS)
        commit_all(clone)
        yield clone


@pytest.fixture
def place(tree: Path, tmp_path: Path) -> Iterator[Place]:
    with TemporaryDirectory(prefix="beside ") as folder:
        os.chmod(folder, 0o755)
        found = Place(tree, Path(folder) / "bin", Path(folder) / "home")
        for made in found.bin, found.home:
            made.mkdir()
        yield found
        own(found, 0)
        for path in tree, tree / "crates/dmf", tree / "crates/dmf/out":
            path.chmod(0o755)


def ended(place: Place, case: Case, command: str) -> tuple[int, str, str]:
    """How a command ends that is typed in the clone."""
    variables = {
        **PLAIN,
        "PATH": f"{place.bin}:{PLAIN['PATH']}",
        "HOME": str(place.home),
        **case.variables,
    }
    variables.pop(case.unset, None)
    who = (
        {"user": NOBODY, "group": NOBODY, "extra_groups": []}
        if case.by_nobody and os.geteuid() == 0
        else {}
    )
    if who:
        os.chown(place.home, NOBODY, NOBODY)
    ran = subprocess.run(
        ["/bin/bash", "-c", command],
        cwd=place.clone,
        env=variables,
        stdin=subprocess.DEVNULL,
        capture_output=True,
        text=True,
        timeout=SECONDS,
        umask=case.umask,
        **who,  # type: ignore[call-overload]
    )
    return ran.returncode, ran.stdout, ran.stderr


@pytest.mark.seconds(4)
@pytest.mark.parametrize("case", [pytest.param(case, id=case.name) for case in CASES])
def test_two_commands(place: Place, case: Case) -> None:
    case.set_up(place)
    assert ended(place, case, "./dmf solve --cut <examples/a.max") == case.dmf
    status, out, err = ended(place, case, "./test tests/test_surroundings.py -n 0")
    lines = out.splitlines() or [""]
    assert (status, lines[-1], err) == (
        case.test[0],
        case.test[1],
        case.test[2].format(clone=place.clone),
    ), out
