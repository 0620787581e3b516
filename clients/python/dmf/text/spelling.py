"""How names are spelled in the comments of a problem text and as people type them, and which
existing names resemble one that does not exist."""

from __future__ import annotations

import contextlib
import difflib
import re
import unicodedata
from collections import Counter
from collections.abc import Hashable, Iterable, Iterator, Mapping, Sequence
from itertools import islice
from typing import Any, NamedTuple

from ..errors import NameNotWritable, NoSuchArc, NoSuchNode, shown_value
from .lexical import ARC, LONGEST, NODE, display

# How many names a message lists; among how many names similar ones are looked for; and the longest
# name for which that is done.
MOST_TOLD = 10
MOST_COMPARED = 20_000
LONGEST_COMPARED = 200


def cleaned(text: str) -> str:
    """Return a text without white space around it, and with one space for each run of white space
    inside. A byte order mark, which each of several joined files may have, counts as white space.
    """
    return " ".join(text.replace("\ufeff", " ").split())


def shown_names(names: Sequence[str]) -> Sequence[str]:
    """Return how each of these names is shown, by `display`."""
    return names if "".join(names).isprintable() else [*map(display, names)]


def typed_names(names: Sequence[str]) -> Sequence[str]:
    """Return what can be typed for each of these names: how it is shown, cleaned."""
    shown = shown_names(names)
    lines = "\n".join(shown)
    # What is shown has no other white space than blanks.
    is_clean = not any(blanks in f"\n{lines}\n" for blanks in ("  ", "\n ", " \n"))
    return names if is_clean and shown is names else [*map(cleaned, shown)]


def quoted_name(text: str) -> str:
    """Return a text in quotes as messages show it: on one line, without control characters, and
    shortened if it is long."""
    return repr(text if len(text) <= 60 else text[:57] + "...")


def near(name: str, places: Iterable[str]) -> str:
    """Return the end of a message about an unknown name: the places with similar names, if any."""
    return proposal(nearest(name, places))


def proposal(names: Sequence[str]) -> str:
    """Return the end of a message that asks whether one of these names is meant, if there are
    any."""
    return f"; is it {' or '.join(map(quoted_name, names))}?" if names else ""


def nearest(name: str, places: Iterable[str]) -> list[str]:
    """Return the names among these that are similar to an unknown one, the most similar first."""
    if len(name) > LONGEST_COMPARED:
        return []
    folded = {
        place.casefold(): place
        for place in islice(places, MOST_COMPARED)
        if len(place) <= LONGEST_COMPARED
    }
    return [folded[it] for it in difflib.get_close_matches(name.casefold(), folded, n=3)]


def folded_names(names: Sequence[str]) -> list[str]:
    """Return each of these names without case and accents."""
    lines = "\n".join(names)
    found = lines.casefold().split("\n") if lines.isascii() else []
    # A name may have a line feed.
    return found if len(found) == len(names) else [*map(folded, names)]


def folded(text: str) -> str:
    """Return a text without case and accents, as names are compared in a search."""
    if text.isascii():
        return text.casefold()
    return "".join(
        sign
        for sign in unicodedata.normalize("NFKD", text.casefold())
        if not unicodedata.combining(sign)
    )


# Among how many names a similar one is looked for, so that a caller with many unknown nodes does
# not have to wait.
MOST_NAMES = 2_000


def no_such_node(node: Hashable, numbers: Mapping[Any, int]) -> NoSuchNode:
    """Return the refusal of a node that does not exist."""
    try:
        return NoSuchNode(shown_value(node) + near_node(node, numbers))
    except TypeError:
        # The node cannot be hashed.
        return NoSuchNode(shown_value(node))


def no_such_arc(
    key: Hashable, numbers: Mapping[Any, int], keys: Mapping[int, Hashable], is_arc: Any
) -> NoSuchArc:
    """Return the refusal of a key, or a pair of ends, that no arc has."""
    try:
        return NoSuchArc(shown_value(key) + near_arc(key, numbers, keys, is_arc))
    except TypeError:
        return NoSuchArc(shown_value(key))


def near_node(node: Hashable, numbers: Mapping[Any, int]) -> str:
    """Return the end of a message about a node that does not exist: the same node as a number or as
    a text, or similar names."""
    if isinstance(node, str):
        text = node.strip()
        if text.isascii() and text.isdigit() and len(text) < 20 and int(text) in numbers:
            return f"; is it {int(text)}?"
        return near(node, _texts(numbers))
    return f"; is it {str(node)!r}?" if isinstance(node, int) and str(node) in numbers else ""


def near_arc(
    key: Hashable, numbers: Mapping[Any, int], keys: Mapping[int, Hashable], is_arc: Any
) -> str:
    """Return the end of a message about an arc that does not exist: the arc in the other direction,
    if `is_arc` says that this pair exists; similar keys; or a node similar to an unknown end."""
    if isinstance(key, str):
        return near(key, _texts(keys.values()))
    if isinstance(key, tuple) and len(key) == 2:
        for node in key:
            if node not in numbers:
                return near_node(node, numbers)
        if is_arc((key[1], key[0])):
            return f"; is it {shown_value((key[1], key[0]))}?"
    return ""


def _texts(names: Any) -> list[str]:
    """Return the names that are texts, or nothing if there are too many names."""
    return (
        [name for name in islice(names, MOST_NAMES) if isinstance(name, str)]
        if len(names) <= MOST_NAMES
        else []
    )


# A line feed, and then a naming comment: the kind, the number, and the rest of the line, which may
# be blank.
_NAMING = re.compile(rb"\n[ \t]*c[ \t]+(node|arc)[ \t]+([0-9]+)([ \t][^\n]*|\r?(?=\n)|\Z)")
# The same for nodes alone or for arcs alone, in a text without carriage returns, if the name is not
# blank.
_NAMED = {
    kind: re.compile(
        rf"^[ \t]*c[ \t]+{kind}[ \t]+0*([0-9]{{1,19}})[ \t]+([^ \t\n](?:[^\n]*[^ \t\n])?)",
        re.MULTILINE,
    )
    for kind in (NODE, ARC)
}
# The size of the pieces in which a text is searched for names, in bytes.
PIECE = 1 << 16


class Naming(NamedTuple):
    """A naming comment: the kind that it names, `node` or `arc`, the digits of the number, and the
    name. `start` is the position in the text at which its line begins."""

    start: int
    kind: str
    number: bytes
    name: str


def namings(text: bytes) -> Iterator[Naming]:
    """Yield the naming comments of a text in order, such as `c node 3 Reservoir` and `c arc 5 Mill
    Lane`, including those with a blank name or a number that is too large."""
    for found in _NAMING.finditer(b"\n" + text):
        kind, digits, rest = found.groups()
        if rest.endswith(b"\r") and found.end() <= len(text):
            rest = rest[:-1]
        yield Naming(
            found.start(), kind.decode(), digits, rest.strip(b" \t").decode(errors="replace")
        )


def read_names(text: bytes) -> tuple[dict[int, str], dict[int, str]]:
    """Return the names that the comments of a problem text give to nodes and to arcs. If a node or
    an arc is named twice, the last name counts. The rest of the text is not checked. Comments of
    other forms are ignored, and so are numbers past 10^19, which no node or arc has."""
    return names_in(naming_pieces(text, NODE), NODE), names_in(naming_pieces(text, ARC), ARC)


def naming_pieces(text: bytes, kind: str) -> list[bytes]:
    """Return pieces of whole lines that together contain all comments that name nodes, or arcs."""
    found, begin = [], 0
    while begin < len(text):
        end = text.find(b"\n", begin + PIECE) + 1 or len(text)
        piece = text[begin:end]
        if kind.encode() in piece:
            found.append(piece)
        begin = end
    return found


def names_in(pieces: Iterable[bytes], kind: str) -> dict[int, str]:
    """Return the names that the comments in these pieces give to nodes, or to arcs, without blank
    ones."""
    names: dict[int, str] = {}
    for piece in pieces:
        if b"\r" not in piece:
            # Without carriage returns one search finds all names, several times as fast.
            for significant, name in _NAMED[kind].findall(piece.decode(errors="replace")):
                names[int(significant)] = name
            continue
        for naming in namings(piece):
            digits = naming.number.lstrip(b"0") or b"0"
            if naming.kind == kind and naming.name and len(digits) < LONGEST:
                names[int(digits)] = naming.name
    return names


def name_comments(
    nodes: Mapping[int, Hashable], arcs: Mapping[int, Hashable], *, escapes: bool = False
) -> str:
    """Return the comments that name nodes and arcs. The names are given by number and are written
    with `str`. A node whose name is its own number gets no comment, nor does a blank name.

    Raises `NameNotWritable` if a name would be read back as another name. With `escapes`, such a
    name is written with `\\x0a` and the like in the places that cannot be written.
    """
    node_names = {
        number: str(name)
        for number, name in nodes.items()
        if type(name) is not int or name != number
    }
    names = {
        NODE: _not_blank(node_names),
        ARC: _not_blank({number: str(key) for number, key in arcs.items()}),
    }
    for kind, named in names.items():
        for number, name in named.items():
            if escapes:
                named[number] = written(kind, number, name)
            else:
                _judge(kind, number, name)
    twice = [name for name, count in Counter(names[NODE].values()).items() if count > 1]
    if twice:
        raise NameNotWritable(f"name not writable: two nodes are called {shown_value(twice[0])}")
    return "".join(
        _comment(kind, number, name)
        for kind, named in names.items()
        for number, name in named.items()
    )


def written(kind: str, number: int, name: str) -> str:
    """Return a name as the comment for this node or arc can hold it: unchanged, or escaped."""
    with contextlib.suppress(NameNotWritable):
        _judge(kind, number, name)
        return name
    shown = display(name)
    before, after = len(shown) - len(shown.lstrip(" ")), len(shown) - len(shown.rstrip(" "))
    return r"\x20" * before + shown.strip(" ") + r"\x20" * after


def _not_blank(names: dict[int, str]) -> dict[int, str]:
    return {number: name for number, name in names.items() if name.strip(" \t")}


def _comment(kind: str, number: int, name: str) -> str:
    return f"c {kind} {number} {name}\n"


def _judge(kind: str, number: int, name: str) -> None:
    """Raise `NameNotWritable` if the comment for a name would be read as another name."""
    if name.isprintable() and name == name.strip():
        return
    try:
        node_names, arc_names = read_names(_comment(kind, number, name).encode())
    except UnicodeEncodeError:
        node_names, arc_names = {}, {}
    if (node_names if kind == NODE else arc_names) != {number: name}:
        why = (
            "a name in a comment cannot contain a line feed or half of a character, nor begin or "
            "end with a blank or a carriage return"
        )
        raise NameNotWritable(
            f"name not writable: that of {kind} {number}, {shown_value(name)}: {why}"
        )


def picture_names(
    nodes: Iterable[Hashable], keys: Mapping[int, Hashable]
) -> tuple[dict[int, str], dict[int, str]]:
    """Return the names of nodes and of arcs by number, as a picture shows them."""
    return {number: str(name) for number, name in enumerate(nodes, 1)}, {
        place: str(key) for place, key in keys.items()
    }
