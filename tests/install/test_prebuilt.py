"""Tests how ./dmf takes the executable of prebuilt/, and when it does not, in a small clone."""

from __future__ import annotations

import gzip
import os
import re
import resource
import shutil
import stat
import subprocess
from collections.abc import Callable
from pathlib import Path

import pytest
from conftest import BUILT, ROOT
from limits import SECONDS
from prebuilt_clones import DAMAGES, clone, flipped, read_only, somebody
from small_clone import FACTS, PACKED, PACKED_ARCHIVE, PACKED_LIBRARY, PROGRAM, Clone, Ended

# Fixtures.
__all__ = ["clone", "read_only"]
DAMAGED = rf"dmf: {PACKED} is damaged.*"


def refused(ended: Ended, why: str) -> bool:
    """Whether a call said in one line why nothing was taken, and that nothing can be built."""
    end = "; rt, which is needed to build the program, is not in PATH\\.\n"
    return (ended.status, ended.out) == (70, "") and re.fullmatch(why + end, ended.err) is not None


def test_taken(clone: Clone) -> None:
    """With no toolchain the first call runs the program, and the next one does not unpack it
    again."""
    assert clone.call("solve", "--cut") == (0, "ran the first solve --cut\n", "")
    assert clone.left() == ["dmf"]
    (clone.root / PACKED).unlink()
    assert clone.call("check") == (0, "ran the first check\n", "")


def test_the_program_itself(tmp_path: Path) -> None:
    """The built program and all sources of this repository: the first answer takes less than a
    second of processor time."""
    clone = Clone(tmp_path)
    shutil.rmtree(clone.root / "crates")
    shutil.copy(ROOT / "crates.txt", clone.root)
    shutil.copytree(
        ROOT / "crates",
        clone.root / "crates",
        ignore=shutil.ignore_patterns("out", "must-fail", "more-must-fail"),
    )
    clone.renew("")
    packed, facts = clone.root / PACKED, clone.root / FACTS
    packed.write_bytes(gzip.compress(BUILT.read_bytes()))
    sums = subprocess.run(
        ["sha256sum", BUILT], capture_output=True, text=True, check=True
    ).stdout.split()
    facts.write_text(re.sub("(?m)^executable: .*", f"executable: {sums[0]}", facts.read_text()))
    before = resource.getrusage(resource.RUSAGE_CHILDREN)
    with (ROOT / "examples/a.max").open() as problem:
        ran = subprocess.run(
            clone.words("solve", "--cut"),
            env=clone.environment(),
            stdin=problem,
            capture_output=True,
            text=True,
            timeout=SECONDS,
        )
    after = resource.getrusage(resource.RUSAGE_CHILDREN)
    assert (ran.returncode, ran.stdout.splitlines()[0], ran.stderr) == (0, "s 5", "")
    assert after.ru_utime + after.ru_stime - before.ru_utime - before.ru_stime < 1


def test_a_newer_time(clone: Clone) -> None:
    """A newer time of a source alone changes nothing, nor does a crate of tests, or a file that is
    no source."""
    (clone.root / "crates/test_low/src/lib.rt").write_text("// Changed.\n")
    (clone.root / "crates/low/src/notes.txt").write_text("a note\n")
    assert clone.call().out == "ran the first\n"
    os.utime(clone.root / "crates/low/src/lib.rt", (2**31, 2**31))
    (clone.root / "crates/dmf/out/dmf").write_text("#!/bin/sh\necho an older program\n")
    assert clone.call().out == "ran the first\n"


def change(source: Path) -> None:
    source.write_text("// Changed.\n")


def rename(source: Path) -> None:
    source.rename(source.with_name("other.rt"))


def add_one(source: Path) -> None:
    specs = source.parents[1] / "specs"
    specs.mkdir()
    (specs / "New.antt").write_text("New : Type\n")


@pytest.mark.parametrize("edit", [change, rename, add_one], ids=lambda edit: str(edit.__name__))
def test_other_sources(clone: Clone, edit: Callable[[Path], None]) -> None:
    """A source that says something else: nothing old runs, whatever the times of files say."""
    assert clone.check() == (0, "")
    edit(clone.root / "crates/low/src/lib.rt")
    assert refused(clone.call(), r"dmf: prebuilt/ was made from other sources")
    assert clone.check() == (
        1,
        "prebuilt/ was made from other sources: run `tools/prebuilt renew`\n",
    )


def test_built_where_it_can_be(clone: Clone) -> None:
    """With the toolchain, other sources are built, after a line that says why."""
    (clone.root / "crates/low/src/lib.rt").write_text("// Changed.\n")
    clone.made.write_text(PROGRAM.format("the second"))
    ended = clone.call("solve", environment=clone.with_toolchain())
    assert (ended.status, ended.out) == (0, "ran the second solve\n")
    first, second, *_ = ended.err.splitlines()
    assert first == "dmf: prebuilt/ was made from other sources." and second.startswith(
        "dmf: the program is proved and built. This happens once"
    )


@pytest.mark.parametrize("damage", DAMAGES)
def test_damaged(clone: Clone, damage: str) -> None:
    packed = clone.root / PACKED
    packed.write_bytes(DAMAGES[damage](packed.read_bytes()))
    assert refused(clone.call(), DAMAGED)
    assert clone.left() == []
    assert clone.check()[0] == 1 and re.fullmatch(
        DAMAGED + ": run `tools/prebuilt renew`\n", "dmf: " + clone.check()[1]
    )


@pytest.mark.parametrize("name", [PACKED, FACTS])
def test_missing(clone: Clone, name: str) -> None:
    (clone.root / name).unlink()
    assert refused(clone.call(), f"dmf: {name} does not exist or cannot be read")


def test_facts_of_another(clone: Clone) -> None:
    """A file beside the executable that names another sum, or none."""
    facts = clone.root / FACTS
    whole = facts.read_text()
    facts.write_text(re.sub("(?m)^executable: .", "executable: z", whole))
    assert refused(clone.call(), DAMAGED)
    facts.write_text("")
    assert refused(clone.call(), "dmf: prebuilt/ was made from other sources")


@pytest.mark.parametrize("tool", ["gzip", "awk", "sha256sum"])
def test_without_a_tool(clone: Clone, tool: str) -> None:
    (clone.bin / tool).unlink()
    assert refused(clone.call(), f"dmf: {tool} is not in PATH")


def test_another_system(clone: Clone) -> None:
    (clone.bin / "uname").unlink()
    (clone.bin / "uname").write_text("#!/bin/sh\necho Linux aarch64\n")
    (clone.bin / "uname").chmod(0o755)
    assert refused(
        clone.call(),
        "dmf: prebuilt/ is for Linux on x86-64, and this is Linux aarch64; on Windows use WSL 2, "
        "elsewhere a Linux container .see Containerfile.",
    )


def test_does_not_run_here(clone: Clone) -> None:
    """As an executable of a newer C library would not."""
    clone.renew("#!/bin/sh\necho 'no such C library' >&2\necho or so >&2\nexit 1\n")
    assert refused(
        clone.call(),
        "dmf: the executable in prebuilt/ does not run here: no such C library; it needs glibc "
        "2.34 or later, or a Linux container .see Containerfile.",
    )
    assert clone.left() == []


def test_two_calls(clone: Clone) -> None:
    """Calls at once, each of which unpacks the program: each runs a whole one."""
    pipe = subprocess.PIPE
    calls = [
        subprocess.Popen(
            clone.words(str(number)), env=clone.environment(), stdout=pipe, stderr=pipe, text=True
        )
        for number in range(8)
    ]
    assert [call.communicate(timeout=SECONDS) for call in calls] == [
        (f"ran the first {number}\n", "") for number in range(8)
    ]
    assert clone.left() == ["dmf"]


def test_read_only(read_only: Clone) -> None:
    """Where the clone cannot be written, the program lies in the caller's cache, and is looked at
    before each call."""
    clone, by = read_only, somebody(read_only)
    assert clone.call("solve", by=by) == (0, "ran the first solve\n", "")
    (kept,) = clone.home.glob(".cache/dmf/*/dmf")
    assert stat.S_IMODE(kept.parent.stat().st_mode) == 0o700
    kept.chmod(0o755)
    kept.write_text("#!/bin/sh\necho foreign\n")
    assert clone.call("solve", by=by) == (0, "ran the first solve\n", "")
    made = kept.stat().st_ino
    assert (
        clone.call("solve", by=by) == (0, "ran the first solve\n", "")
        and kept.stat().st_ino == made
    )
    # One that others may write.
    kept.chmod(0o757)
    assert clone.call("solve", by=by) == (0, "ran the first solve\n", "")
    assert stat.S_IMODE(kept.stat().st_mode) == 0o755
    elsewhere = clone.home / "elsewhere"
    assert clone.call("solve", by=by, environment={"XDG_CACHE_HOME": str(elsewhere)}).status == 0
    assert [*elsewhere.glob("dmf/*/dmf")]


def test_nowhere_to_write(read_only: Clone) -> None:
    clone, by = read_only, somebody(read_only)
    clone.home.chmod(0o555)
    ended = clone.call("solve", by=by)
    assert refused(
        ended,
        "dmf: neither .*/crates/dmf/out nor .*/home/.cache/dmf/.* can be written; XDG_CACHE_HOME "
        "can name another folder",
    )
    assert refused(
        clone.call("solve", by=by, environment={"HOME": ""}),
        "dmf: .*/crates/dmf/out cannot be written, and neither HOME nor XDG_CACHE_HOME names a "
        "folder",
    )


def test_compared(clone: Clone) -> None:
    """The gate's comparison with what was built."""
    built = clone.root / "crates/dmf/out/dmf"
    assert clone.check(str(built)) == (1, f"{built} does not exist\n")
    assert clone.call().status == 0
    assert clone.check(str(built)) == (0, "")
    built.write_bytes(flipped(built.read_bytes()))
    assert clone.check(str(built)) == (
        1,
        f"the executable in prebuilt/ differs from {built}: run `tools/prebuilt renew`\n",
    )


def test_of_what_it_was_made(clone: Clone) -> None:
    """The facts: seven lines, the first two of which are those of VERSION and of `rt version`, and
    the same each time."""
    facts = (clone.root / FACTS).read_text()
    names = ["executable", "sources", "library", "library sources", "archive"]
    assert re.fullmatch(
        "version: 0.9.7\ntoolchain: a kit of the test\n"
        + "".join(f"{name}: [0-9a-f]{{64}}\n" for name in names),
        facts,
    )
    files = [clone.root / name for name in (FACTS, PACKED, PACKED_LIBRARY, PACKED_ARCHIVE)]
    before = [file.read_bytes() for file in files]
    clone.renew()
    assert [file.read_bytes() for file in files] == before


def test_words(clone: Clone) -> None:
    """A command that is none, or with words too many, is refused."""
    for words in (
        (),
        ("wash",),
        ("take", "it"),
        ("library", "it"),
        ("renew", "it"),
        ("check", "a", "b", "c", "d"),
    ):
        ran = subprocess.run(
            [clone.root / "tools/prebuilt", *words], capture_output=True, text=True, timeout=SECONDS
        )
        assert (ran.returncode, ran.stdout, ran.stderr[:5]) == (2, "", "Usage"), words
