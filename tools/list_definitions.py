#!/usr/bin/env python3
"""List what a definition rests on: the definitions that it names, those that they name, and so on,
by the files that contain them.

    python3 tools/list_definitions.py [NAME]

NAME is by default `RunsWords`, which says what the program does with its arguments. Each line has a
file, how many of its definitions are among these, and how many lines these have with their
comments. The last line has the sums. Types that stand beside the code and the definitions of std
are not followed.
"""

from __future__ import annotations

import argparse
import re
import sys
from collections.abc import Iterator
from pathlib import Path
from typing import NamedTuple

CRATES = Path(__file__).resolve().parents[1] / "crates"
HEAD = re.compile(r"\s*(?:(?:abbrev|unfoldable|pub|record|data|opaque) )+\s*(\S+)")
USE = re.compile(r"^use Rattle\.(\w+)\.specs\.([\w.]+?)(?:\.\{(.*)\}| as (\w+))$", re.MULTILINE)
WORD = re.compile(r"[^\s(){}\[\],;`\"]+")


class Definition(NamedTuple):
    file: Path
    name: str


class Module(NamedTuple):
    """A file of definitions: the text of each definition, and where each name comes from that a
    `use` line imports."""

    texts: dict[str, str]
    brought: dict[str, Definition]
    files: dict[str, Path]


def blocks(text: str) -> Iterator[tuple[str, str]]:
    """Yield the definitions of a file, each with its text, up to the comment or blank line before
    the next one."""
    for block in re.split(r"\n\s*\n", text):
        heads = [match for match in map(HEAD.match, block.split("\n")) if match]
        if heads:
            yield heads[0][1].strip("◌"), block


def module_of(file: Path) -> Module:
    text = file.read_text()
    brought, files = {}, {}
    for crate, path, names, short in USE.findall(text):
        named = CRATES / crate / "specs" / (path.replace(".", "/") + ".antt")
        if short:
            files[short] = named
        for name in filter(None, re.split(r",\s*", names)):
            whole, _, other = name.partition(" as ")
            brought[(other or whole).strip("◌")] = Definition(named, whole.strip("◌"))
    return Module(dict(blocks(text)), brought, files)


def named_in(text: str, module: Module, file: Path) -> Iterator[Definition]:
    """Yield the definitions that a text names: those of its own file, and others."""
    for word in WORD.findall(re.sub(r"--.*$", "", text, flags=re.MULTILINE)):
        first, _, rest = word.partition(".")
        if word in module.texts or first in module.texts:
            yield Definition(file, word if word in module.texts else first)
        elif first in module.files and rest:
            yield Definition(module.files[first], rest)
        for name in {word, first} & module.brought.keys():
            yield module.brought[name]


def below(start: Definition) -> dict[Definition, str]:
    """Return the definition and all that it rests on, with their texts."""
    modules: dict[Path, Module] = {}
    found: dict[Definition, str] = {}
    waiting = [start]
    while waiting:
        definition = waiting.pop()
        if definition in found or not definition.file.exists():
            continue
        module = modules.setdefault(definition.file, module_of(definition.file))
        if definition.name not in module.texts:
            # A constructor belongs to the definition of its type.
            owners = [
                name
                for name, text in module.texts.items()
                if re.search(rf"^\s+(pub )?{re.escape(definition.name)} ", text, re.MULTILINE)
            ]
            waiting += [Definition(definition.file, name) for name in owners]
            if not owners:
                raise AssertionError(definition)
            continue
        found[definition] = module.texts[definition.name]
        waiting += named_in(found[definition], module, definition.file)
    return found


def start_of(name: str) -> Definition:
    files = [
        file for file in sorted(CRATES.glob("*/specs/*.antt")) if name in module_of(file).texts
    ]
    if len(files) != 1:
        sys.exit(f"list_definitions.py: {len(files)} files define {name}")
    return Definition(files[0], name)


def main() -> None:
    parser = argparse.ArgumentParser(description=(__doc__ or "").splitlines()[0])
    parser.add_argument("name", nargs="?", metavar="NAME", default="RunsWords", help="a definition")
    found = below(start_of(parser.parse_args().name))
    files = sorted({definition.file for definition in found})
    for file in files:
        texts = [text for definition, text in found.items() if definition.file == file]
        print(
            f"{file.relative_to(CRATES)}: {len(texts)} definitions, "
            f"{sum(len(text.splitlines()) for text in texts)} lines"
        )
    print(
        f"{len(files)} files, {len(found)} definitions, "
        f"{sum(len(text.splitlines()) for text in found.values())} lines"
    )


if __name__ == "__main__":
    main()
