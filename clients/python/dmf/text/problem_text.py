"""Read problem texts as `dmf` does, whole or in pieces, and the problem that a picture carries.

docs/FORMATS.md has the format and the order in which a line is checked.
"""

from __future__ import annotations

import base64
import binascii
import re
import struct
import zlib
from dataclasses import dataclass, field
from typing import NamedTuple

from ..errors import TableFault
from .lexical import FIELD, LARGEST, MOST_ARCS, MOST_NODES, Fault, TextFault, lines, read_number
from .spelling import read_names
from .table_comments import TableComments, described

# The longest problem that is unpacked from a picture, in bytes. It has some 30,000,000 arcs.
LONGEST = 1 << 30
MARK = b"dmf-problem:"
_SAID = MARK + rb"([A-Za-z0-9+/=]+);"
_PNG, _HEADER = b"\x89PNG\r\n\x1a\n", 33
# Where a file of each form carries the problem, by the bytes with which the file begins. The
# owner's names and notes may look like a problem, but cannot stand at these places.
_PLACES = {
    _PNG: re.compile(rb"tEXtComment\0" + _SAID),
    b"// " + MARK: re.compile(rb"\A// " + _SAID + rb"\r?\n"),
    b"<!DOCTYPE html": re.compile(rb"<!-- " + _SAID + rb" -->\s*</body>\s*</html>\s*\Z"),
    b"<": re.compile(rb"<metadata>" + _SAID + rb"</metadata>\s*</svg>\s*\Z"),
}


def carrying(data: bytes, problem: str) -> bytes:
    """Return a picture or a page with a problem embedded. Data in another form is returned
    unchanged."""
    said = MARK + base64.b64encode(zlib.compress(problem.encode("utf-8", "surrogateescape"))) + b";"
    if data.startswith(_PNG):
        chunk = b"tEXtComment\0" + said
        return (
            data[:_HEADER]
            + struct.pack(">I", len(chunk) - 4)
            + chunk
            + struct.pack(">I", zlib.crc32(chunk))
            + data[_HEADER:]
        )
    if data.startswith(b"digraph"):
        return b"// %b\n%b" % (said, data)
    if data.startswith(b"<!DOCTYPE html"):
        return data.replace(b"</body>", b"<!-- %b -->\n</body>" % said)
    return data.replace(b"</svg>", b"<metadata>%b</metadata>\n</svg>" % said)


def problem_in(data: bytes) -> bytes:
    """Return the problem that the contents of a picture or page carry. Any other contents are
    returned unchanged. Raises a `TableFault` if a part of the problem is missing."""
    place = next((place for begin, place in _PLACES.items() if data.startswith(begin)), None)
    if place is None or MARK not in data:
        return data
    found, unpacked = list(place.finditer(data))[-1:], zlib.decompressobj()
    try:
        text = (
            unpacked.decompress(base64.b64decode(found[0][1], validate=True), LONGEST)
            if found
            else b""
        )
    except (binascii.Error, zlib.error):
        text = b""
    if not unpacked.eof:
        raise TableFault(
            "a part of the problem that it carries is missing, or the problem has more than "
            f"{LONGEST} bytes"
        )
    return text


FIELD_COUNTS = {b"p": 4, b"n": 3, b"a": 4}


@dataclass
class Problem:
    """A problem as its text gives it. Arc number j is `arcs[j - 1]`: its tail, its head and its
    capacity. Nodes are counted from 1 too. `node_names` and `arc_names` have only the nodes and
    arcs that exist and that a comment names. `described` is what the comments say about the table
    that the problem was made from."""

    node_count: int
    source: int
    sink: int
    arcs: list[tuple[int, int, int]]
    node_names: dict[int, str] = field(default_factory=dict)
    arc_names: dict[int, str] = field(default_factory=dict)
    described: TableComments = TableComments()


def told_scale(described: TableComments) -> str:
    """Return the scale of a problem as it is shown: empty if it is 1."""
    return "" if described.measure.scale == 1 else f"{described.measure.scale:f}"


def read_problem(text: bytes) -> Problem:
    """Return the problem that a text describes, with its names. Raises a `TextFault` for the first
    fault, the one that `dmf` reports."""
    reading = _ProblemReader()
    read = lines(text)
    # If the text has none of these bytes, `split` separates fields exactly at spaces and tabs, and
    # is faster.
    is_plain = not any(odd in text for odd in (b"\r", b"\x0b", b"\x0c"))
    line = 0
    try:
        for line, content in enumerate(read, 1):
            found = content.split() if is_plain else FIELD.findall(content)
            if found and not found[0].startswith(b"c"):
                reading.take(found)
        line = len(read) + 1
        problem = reading.end()
    except Fault as fault:
        raise TextFault(line, fault.reason, fault.field) from None
    node_names, arc_names = read_names(text)
    problem.described = described(text).within(problem.node_count, len(problem.arcs))
    problem.node_names = {
        number: name for number, name in node_names.items() if 1 <= number <= problem.node_count
    }
    problem.arc_names = {
        number: name for number, name in arc_names.items() if 1 <= number <= len(problem.arcs)
    }
    return problem


class _ProblemReader:
    """The lines of a problem text that were read so far."""

    def __init__(self) -> None:
        self.node_count = 0
        self.arc_count = 0
        self.capacity_left = LARGEST
        self.terminals: dict[bytes, int] = {}
        self.arcs: list[tuple[int, int, int]] = []

    def take(self, found: list[bytes]) -> None:
        """Take in the fields of a line. Raises the line's `Fault`."""
        kind = found[0]
        if kind not in FIELD_COUNTS:
            raise Fault("unknown line", kind)
        self.judge_place(kind)
        if len(found) != FIELD_COUNTS[kind]:
            raise Fault("wrong number of fields")
        if kind == b"a":
            self.take_arc(read_number(found[1]), read_number(found[2]), read_number(found[3]))
        elif kind == b"n":
            self.take_terminal(read_number(found[1]), found[2])
        else:
            self.take_counts(found)

    def judge_place(self, kind: bytes) -> None:
        if kind == b"p":
            if self.node_count:
                raise Fault("second problem line")
        elif not self.node_count:
            raise Fault("problem line expected")
        elif kind == b"a" and len(self.terminals) < 2:
            raise Fault("arc before source and sink")
        elif kind == b"a" and len(self.arcs) == self.arc_count:
            raise Fault("too many arcs")

    def take_counts(self, found: list[bytes]) -> None:
        if found[1] != b"max":
            raise Fault("not a max problem")
        nodes, arcs = read_number(found[2]), read_number(found[3])
        if not 2 <= nodes <= MOST_NODES or arcs > MOST_ARCS:
            raise Fault("count out of range")
        self.node_count, self.arc_count = nodes, arcs

    def take_terminal(self, node: int, letter: bytes) -> None:
        if letter not in (b"s", b"t"):
            raise Fault("neither source nor sink")
        self.judge_node(node)
        if letter in self.terminals:
            raise Fault("terminal named twice")
        if node in self.terminals.values():
            raise Fault("source and sink are the same")
        self.terminals[letter] = node

    def take_arc(self, tail: int, head: int, capacity: int) -> None:
        if not (1 <= tail <= self.node_count and 1 <= head <= self.node_count):
            self.judge_node(tail)
            self.judge_node(head)
        self.capacity_left -= capacity
        if self.capacity_left < 0:
            raise Fault("capacities past 64 bits")
        self.arcs.append((tail, head, capacity))

    def judge_node(self, node: int) -> None:
        if not 1 <= node <= self.node_count:
            raise Fault("no such node", b"%d" % node)

    def end(self) -> Problem:
        if not self.node_count:
            raise Fault("problem line expected")
        if len(self.terminals) < 2:
            raise Fault("source or sink missing")
        if len(self.arcs) < self.arc_count:
            raise Fault("too few arcs")
        return Problem(self.node_count, self.terminals[b"s"], self.terminals[b"t"], self.arcs)


class ArcRecord(NamedTuple):
    """An arc from node `tail` to node `head`. A closed arc has capacity 0."""

    tail: int
    head: int
    capacity: int
    is_closed: bool = False
