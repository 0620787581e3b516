#!/usr/bin/env python3
"""Print what is claimed: each contract of the calls that callers have, and each definition and type
that these contracts rest on.

    python3 tools/claims.py            print it
    python3 tools/claims.py --write    write it to docs/CLAIMS.txt

The calls are those of the fronts `dmf_net`, `dmf_text`, `dmf_session` and `dmf_run`, those of
`dmf_program`, through which `main` runs what the arguments ask for, the functions with contracts in
`main`'s crate, and the C functions in `dmf_c`. For a call the list has its signature and its
clauses, for a type its members and what contracts see of it, and for a definition its text: without
comments and bodies. So whatever makes a claim weaker or stronger changes a line of that file, and
changes of code or proofs alone change none. The definitions of std and of the toolchain's other
libraries are not followed.
"""

from __future__ import annotations

import argparse
import re
import sys
from collections.abc import Iterator
from functools import lru_cache
from pathlib import Path
from typing import NamedTuple

from list_definitions import CRATES, Definition, module_of, named_in
from list_edits import exports, home_of, type_of

FRONTS = "dmf_net", "dmf_text", "dmf_session", "dmf_run", "dmf_program"
OF_C, OF_MAIN = "dmf_c", "dmf"
PLACE = CRATES.parent / "docs" / "CLAIMS.txt"

COMMENT = re.compile(r"^ *(?://.*|#!?\[[^\n]*\])\n|(?<=[;,{}]) *// [^\n]*$", re.MULTILINE)
# An item of a file, which begins in the first column: one line, or up to the bracket in the first
# column that closes it.
VISIBLE = r"(?:pub(?:\(crate\))? )?(?:const )?(?:unsafe )?(?:extern \"C\" )?"
ITEM = re.compile(
    rf"^{VISIBLE}(?P<kind>fn|struct|enum|trait|impl|[A-Z_]+(?=:))\b"
    r"(?:[^\n]*(?:;|\{\})$|.*?^(?:\}|\{\})$)",
    re.MULTILINE | re.DOTALL,
)
NAME = re.compile(r"\b(?:fn|struct|enum|trait|const) (\w+)")
# A function with a body, at any depth: what stands before the body, without the bracket of the last
# line.
FUNCTION = re.compile(
    rf"^(?P<indent> *)(?P<head>{VISIBLE}fn [^\n]*(?:\n(?!(?P=indent)[{{}}])[^\n]*)*?)"
    r"(?:\n(?P=indent)\{(?:\}|.*?\n(?P=indent)\})$| \{(?:\}|\n.*?\n(?P=indent)\})$)",
    re.MULTILINE | re.DOTALL,
)
GHOST_USE = re.compile(
    r"^ *(?:pub )?(?:ghost )?use Rattle\.(\w+)\.specs\.([\w.]+?)(?:\.\{([^}]*)\}| as (\w+));",
    re.MULTILINE,
)
# A member of an impl that contracts see. They do not see how a model is made from private fields,
# nor the invariants of these; laws are proofs.
GHOST = re.compile(
    r"^    ghost (?!use |laws|view|invariant).*?\};(?=\n(?: {4}\S|\}|\n))", re.MULTILINE | re.DOTALL
)
# A private field of a struct.
PRIVATE = re.compile(r"^    (?!pub |ghost )\w+: .*\n", re.MULTILINE)
WORD = re.compile(r"[\w◌']+")


class Item(NamedTuple):
    """Something that is claimed: the file, the name, and the text without comments and bodies."""

    file: Path
    name: str
    text: str


def without_comments(text: str) -> str:
    return COMMENT.sub("", text)


def heads(text: str, indent: str, public_only: bool) -> Iterator[str]:
    """Yield the functions of a text at this depth, each with its clauses and without its body."""
    for function in FUNCTION.finditer(text):
        if function["indent"] == indent and (
            function["head"].startswith("pub ") or not public_only
        ):
            yield f"{indent}{function['head']}"


def shown(item: str, kind: str) -> str:
    """Return what an item claims: for a function its head, for an impl the heads of its calls and
    its ghost members, for anything else all of it."""
    first = item.partition("{")[0].rstrip()
    if kind == "fn":
        return next(heads(f"{item}\n", "", False), item)
    if kind == "impl":
        # A call of a trait has the trait's clauses, and in an impl sometimes more.
        is_own = " for " not in first
        calls = [
            head
            for head in heads(item, "    ", is_own)
            if is_own or re.search(r"^ +(?:requires|ensures)\b", head, re.MULTILINE)
        ]
        inside = [*GHOST.findall(item), *calls]
        return "\n".join([f"{first} {{", *inside, "}"]) if inside else ""
    item = re.sub(r"^ *ghost use .*\n", "", item, flags=re.MULTILINE)
    if kind == "struct":
        item = PRIVATE.sub("", item)
    return (
        FUNCTION.sub(lambda it: f"{it['indent']}{it['head']} {{ .. }}", item)
        if kind == "trait"
        else item
    )


@lru_cache(maxsize=None)
def items_of(file: Path) -> list[Item]:
    """Return the items of a file of code, each under the name that it is about."""
    found = []
    for match in ITEM.finditer(without_comments(file.read_text())):
        name = NAME.search(match[0])
        about = (
            type_of(match[0].partition("{")[0].removeprefix("impl"))
            if match["kind"] == "impl"
            else name[1]
            if name
            else ""
        )
        found.append(Item(file, about, shown(match[0], match["kind"])))
    return [it for it in found if it.text]


@lru_cache(maxsize=None)
def code_of(crate: str) -> list[Path]:
    return sorted(
        file
        for file in (CRATES / crate / "src").rglob("*.rt")
        if "tests" not in file.parts and file.name != "tests.rt"
    )


@lru_cache(maxsize=None)
def named(crate: str, name: str) -> list[Item]:
    """Return all that a crate says about a name: the item, and the impls of a type."""
    return [item for file in code_of(crate) for item in items_of(file) if item.name == name]


def calls_of_c() -> list[Item]:
    return [item for file in code_of(OF_C) for item in items_of(file) if 'extern "C"' in item.text]


def calls_of_main() -> list[Item]:
    """Return the functions of the program's crate that promise something."""
    return [
        item
        for file in code_of(OF_MAIN)
        for item in items_of(file)
        if re.search(r"^ +ensures\b", item.text, re.MULTILINE)
    ]


def claimed() -> dict[str, list[Item]]:
    """Return what each front exports."""
    found = {
        front: [it for _, name in exports(front) for it in named(home_of(front, name), name)]
        for front in FRONTS
    }
    return {**found, OF_MAIN: calls_of_main(), OF_C: calls_of_c()}


@lru_cache(maxsize=None)
def brought_by(file: Path) -> dict[str, Definition]:
    """Return the definitions that a file of code imports by `ghost use`, by the names that it gives
    them."""
    found = {}
    for crate, path, names, short in GHOST_USE.findall(file.read_text()):
        place = CRATES / crate / "specs" / (path.replace(".", "/") + ".antt")
        for name in filter(None, map(str.strip, names.split(","))):
            whole, _, other = name.partition(" as ")
            found[(other or whole).strip("◌")] = Definition(place, whole.strip("◌"))
        if short:
            found[short] = Definition(place, "")
    return found


def is_ours(definition: Definition) -> bool:
    return (CRATES / definition.file.relative_to(CRATES).parts[0] / "src").is_dir()


def types_named(text: str, crate: str) -> Iterator[Item]:
    """Yield the types of this crate that a text names, without their calls."""
    for word in {*re.findall(r"\b[A-Z]\w+\b", text)}:
        yield from (item for item in named(crate, word) if is_type(item))


def is_type(item: Item) -> bool:
    """Return True if an item is a type, or what contracts see of one."""
    first = item.text.partition("{")[0]
    return " fn " not in f" {first}" and (" for " in first or not first.startswith("impl"))


def declared(definition: Definition) -> list[Item]:
    """Return the type in the code that a definition stands for: `specs/declared/module/Type.antt`
    is made from `src/module.rt`."""
    crate, _, kind, *path = definition.file.relative_to(CRATES).with_suffix("").parts
    if kind not in ("declared", "contracts"):
        raise ValueError(f"{definition.file} does not exist")
    return [
        item for part in path if part[0].isupper() for item in named(crate, part) if is_type(item)
    ]


def in_own_file(definition: Definition) -> Iterator[tuple[str, str]]:
    """Yield the definition, or the one that a constructor belongs to, with its text."""
    texts = module_of(definition.file).texts
    if definition.name in texts:
        yield definition.name, texts[definition.name]
    else:
        constructor = re.compile(rf"^\s+(pub )?{re.escape(definition.name)} ", re.MULTILINE)
        yield from ((name, text) for name, text in texts.items() if constructor.search(text))


def below(starts: list[Item]) -> list[Item]:
    """Return all definitions and types that these items rest on, without the items themselves."""
    found: set[Item] = set()
    waiting = [*starts]
    while waiting:
        item = waiting.pop()
        if item not in found:
            found.add(item)
            waiting += rests_on(item)
    return sorted(found - {*starts})


def rests_on(item: Item) -> Iterator[Item]:
    """Yield the definitions and types that an item names."""
    crate = item.file.relative_to(CRATES).parts[0]
    if item.file.suffix == ".rt":
        brought = brought_by(item.file)
        names = [brought[word] for word in {*WORD.findall(item.text)} & brought.keys()]
        yield from types_named(item.text, crate)
    else:
        names = [*named_in(item.text, module_of(item.file), item.file)]
    for definition in names:
        if not is_ours(definition):
            continue
        if definition.file.exists():
            yield from (
                Item(definition.file, name, without_dashes(text))
                for name, text in in_own_file(definition)
            )
        else:
            yield from declared(definition)


def without_dashes(text: str) -> str:
    """Return the text of a definition without its comments."""
    return re.sub(r"^\s*--.*\n|[ ]+-- .*$", "", text, flags=re.MULTILINE).strip("\n")


def lines() -> Iterator[str]:
    """Yield the lines of the list."""
    yield (
        "What is claimed: the contracts of all calls that callers have, and what these rest on. "
        "`python3 tools/claims.py --write` writes this file."
    )
    all_claimed = claimed()
    for front, items in all_claimed.items():
        yield f"\n==== {front}"
        yield from told(items)
    rest = below([item for items in all_claimed.values() for item in items])
    for title, suffix in ("types on which these rest", ".rt"), (
        "definitions on which these rest",
        ".antt",
    ):
        yield f"\n==== {title}"
        yield from told([item for item in rest if item.file.suffix == suffix])


def told(items: list[Item]) -> Iterator[str]:
    """Yield the texts of items, under the files in which they stand."""
    last = None
    for item in items:
        if item.file != last:
            yield f"\n-- {item.file.relative_to(CRATES)}"
            last = item.file
        yield f"\n{item.text}"


def main() -> None:
    parser = argparse.ArgumentParser(description=(__doc__ or "").splitlines()[0])
    parser.add_argument("--write", action="store_true", help=f"writes it to docs/{PLACE.name}")
    text = "".join(f"{line}\n" for line in lines())
    if parser.parse_args().write:
        PLACE.write_text(text)
    else:
        sys.stdout.write(text)


if __name__ == "__main__":
    main()
