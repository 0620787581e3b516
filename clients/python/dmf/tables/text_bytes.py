"""In which encoding a file of text is."""

from __future__ import annotations

import codecs
import re
from typing import Optional

from ..errors import TableFault

# Of how many bytes an encoding is guessed that is only proposed.
SAMPLE_BYTES = 1 << 18
BYTE_ORDER_MARKS = {
    codecs.BOM_UTF8: "utf-8-sig",
    codecs.BOM_UTF32_LE: "utf-32",
    codecs.BOM_UTF32_BE: "utf-32",
    codecs.BOM_UTF16_LE: "utf-16",
    codecs.BOM_UTF16_BE: "utf-16",
}


def text_of(data: bytes, encoding: Optional[str]) -> tuple[str, list[str]]:
    """Return the text of bytes in this encoding, or in the one that is found, with a note if it was
    taken for granted. Raises a `TableFault` with the line of a byte that is wrong."""
    found, note = (encoding, "") if encoding else encoding_of(data)
    judge_bytes(data, found)
    return data.decode(found), [note] if note else []


def encoding_of(data: bytes) -> tuple[str, str]:
    """Return the encoding of bytes, and a note if it was taken for granted. Raises a `TableFault`
    if it cannot be told."""
    for mark, name in BYTE_ORDER_MARKS.items():
        if data.startswith(mark):
            judge_bytes(data, name)
            return name, ""
    head = data[:4096]
    for first, name in (1, "utf-16-le"), (0, "utf-16-be"):
        if head[first::2].count(0) > len(head) // 4:
            raise TableFault(f"every other byte is 0, as {name.upper()} has it: --encoding {name}")
    if data.isascii():
        return "utf-8", ""
    try:
        data.decode()
    except UnicodeDecodeError as fault:
        return _western(data, fault)
    return "utf-8", ""


def _western(data: bytes, fault: UnicodeDecodeError) -> tuple[str, str]:
    """Return Windows-1252, which has all letters of Latin-1 at the same places, if the bytes can be
    that."""
    begin = data.rfind(b"\n", 0, fault.start) + 1
    line = data.count(b"\n", 0, fault.start) + 1
    try:
        shown = re.split(
            r"[,;\t|\r\n\"]", data[begin : fault.start + 200].decode("cp1252", "replace")
        )
        data.decode("cp1252")
    except UnicodeDecodeError as other:
        at = data.count(b"\n", 0, other.start) + 1
        hint = _likely(data)
        raise TableFault(
            f"the byte 0x{data[other.start]:02x} is neither UTF-8 nor Windows-1252; --encoding "
            f"{hint}?",
            at,
        ) from None
    seen, place = 0, fault.start - begin
    for piece in shown:
        seen += len(piece) + 1
        if seen > place:
            return (
                "cp1252",
                f"the file is not UTF-8: line {line} is read as Windows-1252, as in "
                f"{piece.strip()[:40]!r}; --encoding names another",
            )
    return (
        "cp1252",
        f"the file is not UTF-8, and is read as Windows-1252 (line {line}); --encoding names "
        "another",
    )


def _likely(data: bytes) -> str:
    """Return the encoding that bytes look like. charset-normalizer takes French and Spanish for
    other languages, so this only advises."""
    try:
        import charset_normalizer
    except ImportError:
        return "cp850"
    best = charset_normalizer.from_bytes(data[:SAMPLE_BYTES]).best()
    return best.encoding if best else "cp850"


def judge_bytes(data: bytes, encoding: str) -> None:
    """Raise a `TableFault` if these bytes are not of this encoding."""
    try:
        data.decode(encoding)
    except UnicodeError as fault:
        start = fault.start if isinstance(fault, UnicodeDecodeError) else 0
        line = data[:start].decode(encoding, "replace").count("\n") + 1
        shown = f"0x{data[start]:02x}" if start < len(data) else "after the last"
        name = "UTF-8" if encoding == "utf-8-sig" else encoding
        raise TableFault(f"the byte {shown} is not {name}", line) from None
