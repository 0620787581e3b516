#!/usr/bin/env python3
"""Write the version, which is in the file VERSION, into all files that show it. `prebuilt/` shows
it once `tools/prebuilt renew` has run.

    tools/set_version.py            write it
    tools/set_version.py --check    list the files that show another version, and end with status 1
                                    if there are any

The newest heading of CHANGELOG.md is written by hand, and is only checked.
"""

from __future__ import annotations

import re
import sys
from collections.abc import Iterator
from pathlib import Path

ROOT = Path(__file__).resolve().parents[1]
# What stands before and after the version in each file. The C library returns a number: 10,000 for
# each major version, and 100 for each minor one.
TEXTS = {
    "clients/python/dmf/__init__.py": [('__version__ = "', '"')],
    "crates/dmf_arguments/src/help.rt": [('pub const VERSION: &str = "', '"')],
    "docs/TUTORIAL.md": [("    $ ./dmf --version\n    dmf ", "\n")],
    "docs/*.[135]": [(' "" "dmf ', '"')],
    "include/dmf.h": [('#define DMF_VERSION "', '"')],
    "include/dmf.pc": [("\nVersion: ", "\n")],
    "include/dmfConfigVersion.cmake": [('\nset(PACKAGE_VERSION "', '"')],
}
NUMBERS = {
    "crates/dmf_c/src/version.rt": [
        ('pub extern "C" fn dmf_version() -> u32\n    ensures { result ≡ ', " }\n{\n    "),
        (" }\n{\n    ", "\n}\n"),
    ],
}
CHECKED = {
    "CHANGELOG.md": [("\n## ", " - ")],
    "prebuilt/dmf-x86_64-linux.txt": [("version: ", "\n")],
}


def number_of(version: str) -> str:
    """Return the number that the C library has for a version."""
    major, minor, patch = map(int, version.split("."))
    return str(major * 10_000 + minor * 100 + patch)


def places(texts: dict[str, list[tuple[str, str]]]) -> Iterator[tuple[Path, re.Pattern[str]]]:
    """Yield each file that shows the version, and a pattern for the place in it."""
    for pattern, ends in texts.items():
        paths = sorted(ROOT.glob(pattern))
        if not paths:
            raise SystemExit(f"no file matches {pattern}")
        for path in paths:
            for before, after in ends:
                yield path, re.compile(f"({re.escape(before)})([0-9.]+)(?={re.escape(after)})")


def write(texts: dict[str, list[tuple[str, str]]], shown: str) -> None:
    for path, place in places(texts):
        path.write_text(place.sub(rf"\g<1>{shown}", path.read_text(), count=1))


def wrong(texts: dict[str, list[tuple[str, str]]], shown: str) -> Iterator[str]:
    """Yield a line for each file that shows another version, or none."""
    for path, place in places(texts):
        found = place.search(path.read_text())
        if not found or found[2] != shown:
            yield (
                f"{path.relative_to(ROOT)} shows {found[2] if found else 'no version'} and not "
                f"{shown}"
            )


def main() -> int:
    version = (ROOT / "VERSION").read_text().strip()
    if sys.argv[1:] == ["--check"]:
        lines = [*wrong(TEXTS | CHECKED, version), *wrong(NUMBERS, number_of(version))]
        print("\n".join(lines), end="\n" if lines else "")
        return bool(lines)
    if sys.argv[1:]:
        print("Usage: tools/set_version.py [--check]", file=sys.stderr)
        return 2
    write(TEXTS, version)
    write(NUMBERS, number_of(version))
    return 0


if __name__ == "__main__":
    sys.exit(main())
