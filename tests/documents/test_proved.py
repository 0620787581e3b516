"""docs/PROVED.md speaks of each public function of the crates that it names: by its own name, or by
the type of which it names all calls. Laws stand in docs/DEFINITIONS.md. And docs/TRUST.md says how
much a sceptic has to read, and names as many assumed statements as it counts."""

from __future__ import annotations

import re
import subprocess
import sys
from collections.abc import Iterator
from pathlib import Path
from typing import NamedTuple

import pytest
from conftest import ROOT

PROVED, DEFINITIONS, TRUST = (
    ROOT / "docs" / f"{name}.md" for name in ("PROVED", "DEFINITIONS", "TRUST")
)
NAMES = re.compile(r"`([\w:]+)`")
# How a section names a type of which it means all calls.
CALLS = re.compile(r"(?:[Tt]he|all) calls of ((?:`\w+`(?:, | and )?)+)")
FUNCTION = re.compile(r'^(    )?(pub )?(?:const )?(?:(?:unsafe )?extern "C" )?fn (\w+)')
C_FUNCTION = re.compile(r'^pub (?:unsafe )?extern "C" fn (\w+)', re.MULTILINE)
# A crate whose other calls only one crate makes, as its section says.
INNER = {"dmf_links": "Only `dmf_path` calls the rest"}


class Function(NamedTuple):
    """A public function, with the type or the trait that it belongs to, if it does."""

    crate: str
    owner: str
    name: str


def sections() -> dict[str, str]:
    """What PROVED says of each crate."""
    parts = re.split(r"^## (.*)$", PROVED.read_text(), flags=re.MULTILINE)
    return {
        crate: " ".join(text.split())
        for heads, text in zip(parts[1::2], parts[2::2])
        for crate in re.findall(r"`(dmf_\w+)`", heads)
    }


def exported(crate: str) -> set[str]:
    uses = re.findall(
        r"^pub use (?!dmf_)([^;]*);",
        (ROOT / "crates" / crate / "src" / "lib.rt").read_text(),
        re.MULTILINE,
    )
    names = {
        name
        for use in uses
        for name in re.findall(
            r"\w+", use.rpartition("{")[2] if "{" in use else use.rpartition("::")[2]
        )
    }
    return names | {
        name
        for file in (ROOT / "crates" / crate / "src").glob("*.rt")
        for name in C_FUNCTION.findall(file.read_text())
    }


def functions(crate: str) -> Iterator[Function]:
    """The public functions of a crate. Those of std's traits are left out."""
    names = exported(crate)
    for file in sorted((ROOT / "crates" / crate / "src").rglob("*.rt")):
        owner, is_trait = "", False
        for line in file.read_text().splitlines():
            if begins := re.match(
                r"(?:pub )?(impl|trait)(?:<[^>]*>)? (?:(\w+)[^ ]* for )?(\w+)", line
            ):
                owner, is_trait = begins[3], begins[1] == "trait"
            elif line == "}":
                owner, is_trait = "", False
            if (
                (it := FUNCTION.match(line))
                and (it[2] or is_trait)
                and (owner if it[1] else it[3]) in names
            ):
                yield Function(crate, owner, it[3])


ALL = [it for crate in sections() for it in functions(crate)]


def is_told(function: Function, text: str) -> bool:
    if function.name in {name.rpartition("::")[2] for name in NAMES.findall(text)}:
        return True
    types = {name for types in CALLS.findall(text) for name in NAMES.findall(types)}
    return function.owner in types or INNER.get(function.crate, "no such words") in text


def test_functions() -> None:
    texts = sections()
    assert {"dmf_links", "dmf_streams", "dmf_runs"} <= texts.keys() and len(ALL) > 100
    assert Function("dmf_c", "", "dmf_session_free") in ALL
    laws = NAMES.findall(DEFINITIONS.read_text())
    assert not [it for it in ALL if not is_told(it, texts[it.crate]) and it.name not in laws]


def test_crates() -> None:
    """PROVED speaks of each library whose functions have contracts for callers: all below
    `dmf_run`, the one by which `main` calls them, and C's."""
    uses = dict(
        line.split(":")
        for line in (ROOT / "crates.txt").read_text().splitlines()
        if line and line[0] != "#"
    )
    below = {*uses["dmf_run"].split()}
    while (
        more := {it for crate in below for it in uses.get(crate, "").split() if it in uses} - below
    ):
        below |= more
    assert below - {"dmf_node"} | {"dmf_program", "dmf_c"} == sections().keys()


@pytest.mark.parametrize(
    "wrong",
    [Function("dmf_path", "Paths", "no_such_call"), Function("dmf_state", "", "no_such_call")],
)
def test_missing(wrong: Function) -> None:
    assert not is_told(wrong, sections()[wrong.crate])


def test_definitions() -> None:
    """What the main definition rests on, counted."""
    words: list[str | Path] = [sys.executable, ROOT / "tools" / "list_definitions.py"]
    counted = subprocess.run(words, capture_output=True, text=True, check=True).stdout.splitlines()[
        -1
    ]
    files, definitions, lines = map(int, re.findall(r"\d+", counted))
    assert f"{definitions} definitions in {files} files, {lines:,} lines" in " ".join(
        TRUST.read_text().split()
    )


def test_assumed() -> None:
    """The assumed statements that TRUST names, counted. The prover lists them: `rt check
    --list-axioms` in crates/dmf."""
    text = TRUST.read_text()
    (number,) = map(int, re.findall(r"(\d+) assumed statements", text))
    named = [
        name
        for line in re.findall(r"^    (?!git |\./)(.*)$", text, re.MULTILINE)
        for name in re.sub(r"^\S.*?  +", "", line).split()
    ]
    assert number == len(named) == len({*named}) and {
        "rattle_alloc",
        "read",
        "write",
        "rattle_errno",
    } <= {*named}
