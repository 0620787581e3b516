"""Tests that all that shows a version shows the one of the file VERSION, and that
tools/set_version.py writes it everywhere."""

from __future__ import annotations

import ctypes
import re
import shutil
import subprocess
import sys
from pathlib import Path

import dmf
from c_library import library_file
from conftest import BUILT, ROOT
from sources import LISTED

VERSION = (ROOT / "VERSION").read_text().strip()


def set_version(root: Path, *words: str) -> tuple[int, list[str]]:
    ran = subprocess.run(
        [sys.executable, root / "tools/set_version.py", *words], capture_output=True, text=True
    )
    return ran.returncode, (ran.stdout + ran.stderr).splitlines()


def test_the_files_that_show_it() -> None:
    assert set_version(ROOT, "--check") == (0, [])


def test_the_program() -> None:
    assert (
        subprocess.run([BUILT, "--version"], capture_output=True, text=True).stdout
        == f"dmf {VERSION}\n"
    )


def test_the_library() -> None:
    """It answers its version as a number, and the number of its interface, which is the one of the
    header and of its file's name."""
    library = ctypes.CDLL(library_file())
    major, minor, patch = map(int, VERSION.split("."))
    assert library.dmf_version() == 10_000 * major + 100 * minor + patch
    (interface,) = re.findall(
        r"^#define DMF_ABI (\d+)", (ROOT / "include/dmf.h").read_text(), re.MULTILINE
    )
    assert library.dmf_abi() == int(interface) and library_file().endswith(f".so.{interface}")


def test_the_package() -> None:
    assert dmf.__version__ == VERSION


def test_the_pages_and_the_log() -> None:
    """The manual pages, the head of the log of changes, and the program's help."""
    for page in ROOT.glob("docs/*.1"):
        assert f'"dmf {VERSION}"' in page.read_text().splitlines()[0], page
    released = re.findall(r"^## ([0-9.]+) - ", (ROOT / "CHANGELOG.md").read_text(), re.MULTILINE)
    assert released[0] == VERSION
    assert f'VERSION: &str = "{VERSION}"' in (ROOT / "crates/dmf_arguments/src/help.rt").read_text()


def test_it_is_written_everywhere(tmp_path: Path) -> None:
    """Of another version the tool leaves nothing but what is written by hand and what a renewal
    makes, and no file has a third one."""
    names = subprocess.run(
        LISTED, cwd=ROOT, capture_output=True, text=True, check=True
    ).stdout.split("\0")
    for name in {*names} - {""}:
        if name.startswith(
            (
                "clients/python/dmf/__init__",
                "crates/dmf_",
                "docs/",
                "include/",
                "prebuilt/",
                "tools/set_version",
                "CHANGELOG",
                "VERSION",
            )
        ):
            if (ROOT / name).is_file() and "must-fail" not in name:
                (tmp_path / name).parent.mkdir(parents=True, exist_ok=True)
                shutil.copy(ROOT / name, tmp_path / name)
    (tmp_path / "VERSION").write_text("7.68.9\n")
    shown = {line.split()[0] for line in set_version(tmp_path, "--check")[1]}
    assert {
        "include/dmf.h",
        "include/dmf.pc",
        "include/dmfConfigVersion.cmake",
        "docs/dmf.1",
        "docs/dmf.3",
        "docs/dmf-plan.1",
        "docs/TUTORIAL.md",
        "CHANGELOG.md",
    } < shown
    assert set_version(tmp_path) == (0, [])
    by_hand = ["CHANGELOG.md", "prebuilt/dmf-x86_64-linux.txt"]
    assert set_version(tmp_path, "--check") == (
        1,
        [f"{file} shows {VERSION} and not 7.68.9" for file in by_hand],
    )
    assert "\n    dmf 7.68.9\n" in (tmp_path / "docs/TUTORIAL.md").read_text()
    assert "{ result ≡ 76809 }" in (tmp_path / "crates/dmf_c/src/version.rt").read_text()
    left = [
        path
        for path in tmp_path.rglob("*")
        if path.is_file()
        and path.suffix not in (".gz", ".png")
        and f'"{VERSION}"' in path.read_text()
    ]
    assert left == []


def test_words() -> None:
    assert set_version(ROOT, "7.68.9") == (2, ["Usage: tools/set_version.py [--check]"])
