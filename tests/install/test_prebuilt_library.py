"""Tests how the C library is taken from prebuilt/, and when it is not, in a small clone."""

from __future__ import annotations

import stat
import subprocess

import pytest
from limits import SECONDS
from prebuilt_clones import DAMAGES, clone, flipped, read_only, somebody
from small_clone import ARCHIVE, LIBRARY, PACKED_ARCHIVE, PACKED_LIBRARY, Clone, Ended

# Fixtures.
__all__ = ["clone", "read_only"]


def take_library(clone: Clone) -> Ended:
    words = [str(clone.root / "tools/prebuilt"), "library"]
    ran = subprocess.run(
        words, env=clone.environment(), capture_output=True, text=True, timeout=SECONDS
    )
    return Ended(ran.returncode, ran.stdout, ran.stderr)


def test_the_library(clone: Clone) -> None:
    """Both forms are put where they were built, and what they were made of is judged apart from the
    program."""
    library, archive = clone.root / LIBRARY, clone.root / ARCHIVE
    assert take_library(clone) == (0, f"{library}\n", "")
    assert library.read_text() == "a library\n" and stat.S_IMODE(library.stat().st_mode) == 0o644
    assert archive.read_text() == "an archive\n" and stat.S_IMODE(archive.stat().st_mode) == 0o644
    for changed in "crates/dmf_c/src/lib.rt", "tools/library", "tools/dmf.map":
        path = clone.root / changed
        before = path.read_text()
        path.write_text(f"{before}# Changed.\n")
        assert take_library(clone) == (
            1,
            "the C library of prebuilt/ was made from other sources\n",
            "",
        )
        assert clone.check() == (
            1,
            "the C library of prebuilt/ was made from other sources: run `tools/prebuilt renew`\n",
        )
        assert clone.call().out == "ran the first\n"
        path.write_text(before)
    assert clone.check() == (0, "")


@pytest.mark.parametrize("damage", DAMAGES)
@pytest.mark.parametrize(("name", "made"), [(PACKED_LIBRARY, LIBRARY), (PACKED_ARCHIVE, ARCHIVE)])
def test_a_damaged_library(clone: Clone, name: str, made: str, damage: str) -> None:
    packed = clone.root / name
    packed.write_bytes(DAMAGES[damage](packed.read_bytes()))
    status, said, _ = take_library(clone)
    assert (
        status == 1 and said.startswith(f"{name} is damaged") and not (clone.root / made).exists()
    )
    assert clone.check() == (1, f"{said[:-1]}: run `tools/prebuilt renew`\n")
    assert clone.call().out == "ran the first\n"


def test_a_library_compared(clone: Clone) -> None:
    made = {"library": clone.root / LIBRARY, "archive": clone.root / ARCHIVE}
    files = [str(file) for file in (clone.root / "crates/dmf/out/dmf", *made.values())]
    assert (clone.call().status, take_library(clone).status) == (0, 0)
    for part, file in made.items():
        assert clone.check(*files) == (0, "")
        whole = file.read_bytes()
        file.write_bytes(flipped(whole))
        assert clone.check(*files) == (
            1,
            f"the {part} in prebuilt/ differs from {file}: run `tools/prebuilt renew`\n",
        )
        file.unlink()
        assert clone.check(*files) == (1, f"{file} does not exist\n")
        file.write_bytes(whole)


def test_a_library_read_only(read_only: Clone) -> None:
    """Where the clone cannot be written, the library lies in the caller's cache, beside the
    program's."""
    clone, by = read_only, somebody(read_only)
    (clone.root / "crates/dmf_c").chmod(0o555)
    words = [*by, str(clone.root / "tools/prebuilt"), "library"]
    ran = subprocess.run(
        words, env=clone.environment(), capture_output=True, text=True, timeout=SECONDS
    )
    (clone.root / "crates/dmf_c").chmod(0o755)
    if not by:
        return
    (kept,) = clone.home.glob(".cache/dmf/*/libdmf.so.0")
    assert (ran.returncode, ran.stdout, ran.stderr, kept.read_text()) == (
        0,
        f"{kept}\n",
        "",
        "a library\n",
    )
