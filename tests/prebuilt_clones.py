"""Small clones for the tests of prebuilt/, and damage to what lies there."""

from __future__ import annotations

import gzip
import os
import shutil
import tempfile
from collections.abc import Callable, Iterator
from pathlib import Path

import pytest
from small_clone import Clone

NOBODY = 65534


@pytest.fixture
def clone(tmp_path: Path) -> Clone:
    clone = Clone(tmp_path)
    clone.renew()
    return clone


def flipped(content: bytes) -> bytes:
    """A text with one bit in its middle turned round."""
    at = len(content) // 2
    return content[:at] + bytes([content[at] ^ 1]) + content[at + 1 :]


DAMAGES: dict[str, Callable[[bytes], bytes]] = {
    "a bit": flipped,
    "a bit of the executable": lambda packed: gzip.compress(flipped(gzip.decompress(packed))),
    "truncated": lambda packed: packed[:-9],
    "empty": lambda packed: b"",
    "another program": lambda packed: gzip.compress(b"#!/bin/sh\necho foreign\n"),
}


@pytest.fixture
def read_only() -> Iterator[Clone]:
    """A clone that its caller may read and not write, in a folder that everybody can enter."""
    with tempfile.TemporaryDirectory() as folder:
        Path(folder).chmod(0o755)
        clone = Clone(Path(folder))
        clone.renew()
        (clone.root / "crates/dmf").chmod(0o555)
        yield clone
        (clone.root / "crates/dmf").chmod(0o755)


def somebody(clone: Clone) -> tuple[str, ...]:
    """The words by which somebody calls who is not root, to whom the home belongs."""
    if os.geteuid():
        return ()
    os.chown(clone.home, NOBODY, NOBODY)
    return (
        shutil.which("setpriv") or "",
        f"--reuid={NOBODY}",
        f"--regid={NOBODY}",
        "--clear-groups",
    )
