"""Pictures as SVG: their view, the class and title of each part, and their text, also for a file of
its own."""

from __future__ import annotations

import re
from collections.abc import Iterable, Sequence
from xml.etree import ElementTree

from .arrows import SVG
from .letters import width as text_width

# The size of the letters below a saved picture, and the height of a line at size 1.
CAPTION, LINE = 11.0, 1.4
# Characters that XML does not allow, and that `display` leaves as they are.
_NO_XML = re.compile("[\ufffe\uffff]")


def allowed(text: str) -> str:
    """Return a text with a sign in place of each character that XML does not allow."""
    return _NO_XML.sub("\ufffd", text)


def marked(group: ElementTree.Element, classes: Iterable[str], label: str) -> None:
    """Give a part of a picture its classes and its title."""
    group.set("class", " ".join(classes))
    title = ElementTree.Element(f"{{{SVG}}}title")
    title.text = allowed(label)
    group.insert(0, title)


def written(root: ElementTree.Element, style: str = "", below: Sequence[str] = ()) -> str:
    """Return the text of a picture, with a style in it, and lines below it."""
    if style:
        left, top, width, height = map(float, (root.get("viewBox") or "0 0 1 1").split())
        wide = max([width, *(text_width(line) * CAPTION for line in below)])
        root.set(
            "viewBox",
            f"{left:.2f} {top:.2f} {wide:.2f} {height + len(below) * CAPTION * LINE + CAPTION:.2f}",
        )
        for name in "width", "height":
            root.attrib.pop(name, None)
        made = ElementTree.Element(f"{{{SVG}}}style")
        made.text = style
        root.insert(
            0,
            ElementTree.Element(
                f"{{{SVG}}}rect",
                x=f"{left:.2f}",
                y=f"{top:.2f}",
                width="100%",
                height="100%",
                fill="#ffffff",
            ),
        )
        root.insert(0, made)
        for at, line in enumerate(below, 1):
            text = ElementTree.SubElement(
                root,
                f"{{{SVG}}}text",
                x=f"{left + CAPTION:.2f}",
                y=f"{top + height + at * CAPTION * LINE:.2f}",
            )
            text.set("font-size", f"{CAPTION:.2f}")
            text.set("class", "caption")
            text.text = allowed(line)
    return ElementTree.tostring(root, encoding="unicode")


def set_view(root: ElementTree.Element) -> None:
    """Set the picture's view by the spots of places alone, so that a place has the same coordinates
    in each picture."""
    graph = next(group for group in root.iter(f"{{{SVG}}}g") if group.get("class") == "graph")
    moved = re.search(
        r"translate\(([-0-9.e]+)[ ,]+([-0-9.e]+)\)", graph.attrib.pop("transform", "")
    )
    _, _, width, height = map(float, (root.get("viewBox") or "0 0 1 1").split())
    left, up = (float(moved[1]), float(moved[2])) if moved else (0.0, 0.0)
    root.set("viewBox", f"{-left:.2f} {-up:.2f} {width:.2f} {height:.2f}")


ElementTree.register_namespace("", SVG)
ElementTree.register_namespace("xlink", "http://www.w3.org/1999/xlink")
