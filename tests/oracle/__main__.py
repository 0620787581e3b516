"""Runs the second implementation as the program is run: `python3 tests/oracle WORDS`."""

from __future__ import annotations

import os
import re
import sys

# The folder is run as a script, and its files are a package in the folder above it.
sys.path[0] = os.path.dirname(os.path.dirname(os.path.abspath(__file__)))

from oracle.program import Outcome, Texts, asked, run  # noqa: E402


def shown(text: bytes | Texts) -> bytes:
    """What the program writes, or what is known of it where it may write several texts."""
    if isinstance(text, bytes):
        return text
    known: bytes = text.pattern if isinstance(text, re.Pattern) else repr(text).encode()
    return b"(a text such as " + known + b")\n"


def main() -> int:
    words = [os.fsencode(word) for word in sys.argv[1:]]
    reads = not isinstance(asked([word.decode(errors="replace") for word in words]), Outcome)
    outcome = run(words, sys.stdin.buffer.read() if reads else b"")
    for stream, text in (sys.stdout, outcome.written), (sys.stderr, outcome.told):
        stream.buffer.write(shown(text))
    return outcome.status


sys.exit(main())
