"""The page of each crate says in at most 40 lines what an engineer needs to change it: its main
types, its contracts in one table, and what else to touch. Here the pages are compared with the
sources: each type and each call is defined in the file that the page names, and each crate of tests
and file that it sends a reader to exists. docs/ARCHITECTURE.md says in which file what is decided,
and has a picture of the layers: both are compared with the sources and with crates.txt."""

from __future__ import annotations

import re
import sys
from collections.abc import Iterator
from pathlib import Path

import pytest
from conftest import ROOT

sys.path.insert(0, str(ROOT / "tools"))

import draw_layers  # noqa: E402

CRATES = ROOT / "crates"
PAGES = sorted(CRATES.glob("*/README.md"))
MOST_LINES = 40
MOST_TYPES = 3
HEAD = re.compile(r"^\| Call.* \| What it guarantees \|(?: Time.* \|)? File in `(src|crates)/` \|$")
CODE = re.compile("`([^`]+)`")
TYPE = "(?:struct|enum|trait|type)"


def parts(text: str) -> Iterator[tuple[str, str]]:
    """Yield the paragraphs of a page that begin with a bold word, each with this word."""
    for paragraph in text.split("\n\n"):
        if found := re.match(r"\*\*(Types?|Proved|To change it)\*\*", paragraph):
            yield found[1].rstrip("s"), paragraph


def table(text: str) -> Iterator[tuple[str, str, str]]:
    """Yield each row of the table of contracts: its calls, its files, and where these lie."""
    lines = iter(text.splitlines())
    for line in lines:
        if head := HEAD.match(line):
            next(lines)
            for row in iter(lambda: next(lines, ""), ""):
                cells = row.strip("|").split(" | ")
                yield cells[0], cells[-1].strip(), head[1]


def source(crate: Path) -> str:
    return "\n".join(file.read_text() for file in sorted(crate.glob("src/**/*.rt")))


def wrong_types(crate: Path, text: str) -> Iterator[str]:
    """Yield what is wrong with the types that a page names before it says what they are."""
    told = " ".join(paragraph for part, paragraph in parts(text) if part == "Type")
    clauses = [clause.partition(" is ")[0] for clause in told.split("; ")]
    named = [name for clause in clauses for name in CODE.findall(clause)]
    if not named or len(clauses) > MOST_TYPES:
        yield "names no types, or too many"
    for name in named:
        fronted = name in source(crate) and "use dmf_" in source(crate)
        if not re.search(rf"\b{TYPE} {re.escape(name)}\b", source(crate)) and not fronted:
            yield f"has no type {name}"


def wrong_rows(crate: Path, text: str) -> Iterator[str]:
    """Yield what is wrong with the table of contracts."""
    rows = [*table(text)]
    if not rows:
        yield "has no table of contracts"
    for calls, files, place in rows:
        top = CRATES if place == "crates" else crate / "src"
        paths = [top / name for name in CODE.findall(files)]
        if not paths or not all(path.is_file() for path in paths):
            yield f"{files} is missing"
            continue
        code = "\n".join(path.read_text() for path in paths)
        names = {name.rpartition("::")[2] for name in CODE.findall(calls)} - {"=="}
        for name in sorted(names):
            if not re.search(rf"\bfn {re.escape(name)}\b", code):
                yield f"{name} is not in {files}"


def wrong_ways(text: str) -> Iterator[str]:
    """Yield what is wrong with the paragraph that says how to change a crate."""
    told = " ".join(paragraph for part, paragraph in parts(text) if part == "To change it")
    paths = [path for path in CODE.findall(told) if re.match(r"tests/|tools/|bench/", path)]
    tests = [name for name in CODE.findall(told) if re.match("test_[a-z]+$", name)]
    if not paths and not tests:
        yield "names no test"
    for path in paths:
        if not (ROOT / path).exists():
            yield f"{path} is missing"
    for name in tests:
        if not (CRATES / name).is_dir():
            yield f"{name} is not a crate"


def faults(page: Path, text: str) -> list[str]:
    crate, found = page.parent, []
    if len(text.splitlines()) > MOST_LINES:
        found.append(f"has more than {MOST_LINES} lines")
    if [part for part, _ in parts(text)] != ["Type", "Proved", "To change it"]:
        found.append("has other parts")
    return [*found, *wrong_types(crate, text), *wrong_rows(crate, text), *wrong_ways(text)]


@pytest.mark.parametrize("page", PAGES, ids=lambda page: str(page.parent.name))
def test_page(page: Path) -> None:
    assert faults(page, page.read_text()) == []


@pytest.mark.parametrize(
    "old, new, fault",
    [
        ("# dmf_history", "# dmf_history" + "\n" * 40, "has more than 40 lines"),
        ("**Proved**", "Proved", "has other parts"),
        ("`DeltaHistory` keeps", "`NoHistory` keeps", "has no type NoHistory"),
        ("| `undo` |", "| `undone` |", "undone is not in `history.rt`"),
        ("`history.rt` |\n| `undo`", "`gone.rt` |\n| `undo`", "`gone.rt` is missing"),
        ("| What it guarantees |", "| What it does |", "has no table of contracts"),
        ("`test_sessions`", "`test_gone`", "test_gone is not a crate"),
    ],
)
def test_faulty_page(old: str, new: str, fault: str) -> None:
    """Each fault of a page is found."""
    page = CRATES / "dmf_history" / "README.md"
    text = page.read_text()
    assert old in text and fault in faults(page, text.replace(old, new))


def test_each_crate_has_a_page() -> None:
    with_code = {
        path.parents[1] for path in CRATES.glob("dmf*/src/*.rt") if "fn " in path.read_text()
    }
    assert {page.parent for page in PAGES} == with_code | {
        CRATES / name for name in draw_layers.FRONTS
    }


def decided(text: str) -> list[tuple[str, str]]:
    """Return the names in the table of what is decided where, each with the file beside it."""
    (part,) = re.findall("^## Where it is decided$.*?(?=^## )", text, re.MULTILINE | re.DOTALL)
    return re.findall(r"`([\w:]+)`[^`;|]*\(`([\w/]+\.\w+)`", part)


def test_decided() -> None:
    found = decided((ROOT / "docs" / "ARCHITECTURE.md").read_text())
    assert ("History::undo", "dmf_history/src/history.rt") in found and len(found) > 10
    for name, path in found:
        *owner, own = name.split("::")
        text = (CRATES / path).read_text()
        assert re.search(rf"\b{own}\b", text) and all(it in text for it in owner), (name, path)


def test_layers() -> None:
    crates = draw_layers.read_crates(draw_layers.LIST.read_text())
    assert not [*draw_layers.faults(crates)] and len(crates.layers) == 7
    drawn = ROOT / "docs" / "pictures" / "layers.dot"
    assert drawn.read_text() == "\n".join(draw_layers.graph(crates)) + "\n"


@pytest.mark.parametrize(
    ("text", "fault"),
    [
        ("low:\n## core\nhigh: low\n", "low is under no heading"),
        ("## core\nlow: high\n## text\nhigh:\n", "low uses high, which is in a higher layer"),
    ],
)
def test_wrong_layers(text: str, fault: str) -> None:
    assert [*draw_layers.faults(draw_layers.read_crates(text))] == [fault]
