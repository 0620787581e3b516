"""Tests what ./dmf says on its first call, in a folder of its own, where a stand-in for rt makes a
program that writes its words."""

from __future__ import annotations

import os
import re
import shutil
import signal
import subprocess
import time
from collections.abc import Callable
from pathlib import Path

import pytest
from conftest import ROOT
from limits import SECONDS

NONE_THERE = "dmf: prebuilt/dmf-x86_64-linux.gz does not exist or cannot be read"
FIRST_CALL = (
    f"{NONE_THERE}.\ndmf: the program is proved and built. This happens once, and takes 9 to 15 "
    "minutes on 4 idle processors.\n"
)
CHANGED = (
    f"{NONE_THERE}.\ndmf: a source has changed since the program was built. What depends on it is "
    "proved and built again.\n"
)
BUILT = "".join(
    f"dmf: {place} of 4: {crate} is built\n"
    for place, crate in enumerate(["low", "left", "right", "dmf"], 1)
)
CRATES = "# Crates.\nlow:\nleft: low\nright: low\ndmf: left right\nabove: dmf\n"
# A rt that builds a crate over those that it stands on, and writes down when it begins and ends. A
# file holds the crate left, and right ends after left.
WORKING = r"""#!/bin/sh
crate=${PWD##*/}
[ "$crate $1" = "dmf run" ] || [ "$1" = lib ] || exit 1
for below in $(sed -n "s/^$crate: *//p" ../../crates.txt); do
    [ -e "../$below/out/rlib/stamp" ] || exit 1
done
[ ! -e out/rlib/stamp ] || exit 0
echo "begin $crate" >>"$LOG"
case $crate in
left) while [ -e "$LOG.hold" ]; do sleep 0.05; done ;;
right) until grep -q "end left" "$LOG"; do sleep 0.05; done; sleep 1 ;;
esac
mkdir -p out/rlib
touch out/rlib/stamp
if [ "$crate" = dmf ]; then
    printf '#!/bin/sh\necho ran "$@"\n' >out/dmf
    chmod +x out/dmf
fi
echo "end $crate" >>"$LOG"
"""
# A chain of three crates below the program, and one that nothing waits for but the program.
CHAIN = "low:\nleft: low\nright: left\nspare:\ndmf: right spare\n"
# A rt that writes down how nice it is, and with which flags it builds a crate.
NOTING = r"""#!/bin/sh
crate=${PWD##*/}
sleep 0.5
echo "$crate" $(sed "s/.* //" /proc/self/autogroup 2>/dev/null) "$*" >>"$LOG"
mkdir -p out/rlib
if [ "$crate" = dmf ]; then
    printf '#!/bin/sh\necho ran "$@"\n' >out/dmf
    chmod +x out/dmf
fi
"""
# One that fails at one crate, while another is at work.
FAILING = r"""#!/bin/sh
case $PWD in
*/left) echo "no proof of it" && exit 1 ;;
*/right) sleep 50 ;;
*) mkdir -p out/rlib ;;
esac
"""


class Clone:
    """A folder with the script, some crates, and a stand-in for rt."""

    def __init__(self, root: Path, stand_in: str) -> None:
        self.root, self.log, self.hold = root, root / "log", root / "log.hold"
        for crate in "low", "left", "right", "spare", "dmf", "above", "test_low":
            (root / "crates" / crate / "src").mkdir(parents=True)
        for folder in "bin", "tools", "examples":
            (root / folder).mkdir()
        shutil.copy(ROOT / "dmf", root)
        for tool in "build.py", "program_crates.py", "prebuilt", "commands.sh":
            shutil.copy(ROOT / "tools" / tool, root / "tools")
        (root / "crates.txt").write_text(CRATES)
        (root / "bin" / "rt").write_text(stand_in)
        (root / "bin" / "rt").chmod(0o755)
        self.log.write_text("")

    def begin(self, *words: str, by: tuple[str, ...] = ()) -> subprocess.Popen[str]:
        """Calls the script with these words, in a session of its own."""
        environment = {
            **os.environ,
            "LOG": str(self.log),
            "PATH": f"{self.root / 'bin'}:{os.environ['PATH']}",
        }
        pipe = subprocess.PIPE
        return subprocess.Popen(
            [*by, self.root / "dmf", *words],
            stdin=subprocess.DEVNULL,
            stdout=pipe,
            stderr=pipe,
            text=True,
            env=environment,
            start_new_session=True,
        )

    def call(self, *words: str, by: tuple[str, ...] = ()) -> tuple[int, str, str]:
        """How a call ends."""
        return self.ended(self.begin(*words, by=by))

    def ended(self, ran: subprocess.Popen[str]) -> tuple[int, str, str]:
        """The status of a call, what it writes, and what standard error shows, without times."""
        out, err = ran.communicate(timeout=SECONDS)
        return (
            ran.returncode,
            out,
            re.sub(r", after \d+ s(; about \d+ (s|min).* left)?$", "", err, flags=re.MULTILINE),
        )

    def logged(self) -> list[str]:
        return self.log.read_text().splitlines()

    def wait_for(self, line: str) -> None:
        """Wait until a line is in the log."""
        until = time.monotonic() + SECONDS
        while line not in self.logged():
            assert time.monotonic() < until, f"{line} is not in the log"
            time.sleep(0.02)


@pytest.fixture
def clone_of(tmp_path: Path) -> Callable[[str], Clone]:
    return lambda stand_in: Clone(tmp_path, stand_in)


@pytest.fixture
def clone(tmp_path: Path) -> Clone:
    return Clone(tmp_path, WORKING)


@pytest.mark.seconds(6)
def test_calls(clone: Clone) -> None:
    """The first call builds two crates side by side, between the lowest and the program; the next
    builds nothing, nor does one after a change in a crate of tests; and one after another change
    builds again."""
    clone.hold.touch()
    first = clone.begin("solve", "--cut")
    clone.wait_for("begin right")
    clone.hold.unlink()
    assert clone.ended(first) == (0, "ran solve --cut\n", FIRST_CALL + BUILT)
    logged = clone.logged()
    # Which of two crates that are begun together writes first is chance.
    assert sorted(logged[:4]) == ["begin left", "begin low", "begin right", "end low"]
    assert logged[4:] == ["end left", "end right", "begin dmf", "end dmf"]
    assert clone.call("solve", "--cut") == (0, "ran solve --cut\n", "")
    later = time.time() + 3600
    os.utime(clone.root / "crates" / "test_low" / "src", (later, later))
    assert clone.call("solve", "--cut") == (0, "ran solve --cut\n", "")
    os.utime(clone.root / "crates" / "low" / "src", (later, later))
    status, out, err = clone.call("solve", "--cut")
    assert (status, out, err[: len(CHANGED)]) == (0, "ran solve --cut\n", CHANGED)
    # Nothing is to be done for either of the two crates, so which of them ends first is chance too.
    assert sorted(re.findall(r"\w+ is built", err)) == sorted(re.findall(r"\w+ is built", BUILT))


@pytest.mark.seconds(4)
def test_off_the_chain(clone_of: Callable[[str], Clone]) -> None:
    """A crate that can take three times as long without delaying the program leaves the processors
    to the longest chain: it is built by one job and, where the system has a niceness for each
    session, nicer."""
    first, behind = ("0 ", "5 ") if Path("/proc/self/autogroup").exists() else ("", "")
    clone = clone_of(NOTING)
    (clone.root / "crates.txt").write_text(CHAIN)
    assert clone.call("solve")[:2] == (0, "ran solve\n")
    noted = dict(line.split(" ", 1) for line in clone.logged())
    assert noted.pop("dmf").startswith(f"{first}run --jobs ")
    assert noted == {
        "low": f"{first}lib",
        "left": f"{first}lib",
        "right": f"{first}lib",
        "spare": f"{behind}lib --jobs 1",
    }


@pytest.mark.seconds(4)
def test_one_processor(clone: Clone) -> None:
    """One crate after the other on one processor."""
    assert clone.call("solve", by=("taskset", "-c", "0")) == (0, "ran solve\n", FIRST_CALL + BUILT)
    assert clone.logged() == [
        f"{what} {crate}" for crate in ("low", "left", "right", "dmf") for what in ("begin", "end")
    ]


@pytest.mark.seconds(6)
def test_interrupt(clone: Clone) -> None:
    """An interrupt, once the second crate has begun, ends all that was begun, and leaves nothing
    half made. The next call goes on."""
    clone.hold.touch()
    builder = clone.begin("solve")
    clone.wait_for("begin left")
    os.killpg(builder.pid, signal.SIGINT)
    out, err = builder.communicate(timeout=SECONDS)
    # A shell tells both as 130.
    assert (builder.returncode in (130, -signal.SIGINT), out) == (True, "")
    assert (
        err.splitlines()[-1]
        == "dmf: interrupted; the next call goes on with the crates that are missing."
    )
    clone.hold.unlink()
    time.sleep(0.5)
    assert (
        not (clone.root / "crates/left/out").exists()
        and (clone.root / "crates/low/out/rlib/stamp").exists()
    )
    assert "end left" not in clone.logged()
    clone.log.write_text("")
    assert clone.call("solve", "--cut") == (0, "ran solve --cut\n", FIRST_CALL + BUILT)
    assert (
        "begin low" not in clone.logged()
    ), "a crate that was built before the interrupt is built again"


@pytest.mark.seconds(4)
def test_two_calls(clone: Clone) -> None:
    """Of two calls at once one builds, and the other waits."""
    clone.hold.touch()
    first = clone.begin("one")
    clone.wait_for("begin left")
    second = clone.begin("two")
    assert second.stderr and any("this one waits for it" in line for line in second.stderr)
    clone.hold.unlink()
    ended = [(call.communicate(timeout=SECONDS)[0], call.returncode) for call in (first, second)]
    assert ended == [("ran one\n", 0), ("ran two\n", 0)]
    assert sum("begin" in line for line in clone.logged()) == 4


@pytest.mark.seconds(1)
def test_failure(clone_of: Callable[[str], Clone]) -> None:
    told = f"{FIRST_CALL}dmf: 1 of 4: low is built\ndmf: left is not built\nno proof of it\n"
    assert clone_of(FAILING).call("solve", "--cut") == (70, "", told)


def test_without_rt(clone: Clone) -> None:
    tools = clone.root / "few"
    tools.mkdir()
    for tool in "sh", "dirname", "readlink", "find", "head", "uname", "awk", "sha256sum", "gzip":
        (tools / tool).symlink_to(shutil.which(tool) or tool)
    ran = subprocess.run(
        [clone.root / "dmf", "--help"],
        env={"PATH": str(tools)},
        capture_output=True,
        text=True,
        timeout=SECONDS,
    )
    told = f"{NONE_THERE}; rt, which is needed to build the program, is not in PATH.\n"
    assert (ran.returncode, ran.stdout, ran.stderr) == (70, "", told)
