"""The colours of a board's legend, as readers who are colour-blind see them: the shades of each
colouring stay apart, light and dark. How such a reader sees a colour is simulated by the matrices
of Machado, Oliveira and Fernandes (2009), and how far two colours are apart is their distance in
CIELAB."""

from __future__ import annotations

import itertools
import re
from typing import Any

import numpy
import pytest
from desk_shared import ROOT

PAGE = ROOT / "clients/python/dmf/desk/board/page"
# What a reader sees of red, green and blue light: with all three kinds of cones, and without the
# first, the second or the third.
SEEN = {
    "all": numpy.identity(3),
    "protanopia": [
        [0.152286, 1.052583, -0.204868],
        [0.114503, 0.786281, 0.099216],
        [-0.003882, -0.048116, 1.051998],
    ],
    "deuteranopia": [
        [0.367322, 0.860646, -0.227968],
        [0.280085, 0.672501, 0.047413],
        [-0.011820, 0.042940, 0.968881],
    ],
    "tritanopia": [
        [1.255528, -0.076749, -0.178779],
        [-0.078411, 0.930809, 0.147602],
        [0.004733, 0.691367, 0.303900],
    ],
}
# From linear sRGB to XYZ, and the white of D65.
TO_XYZ = [
    [0.4124564, 0.3575761, 0.1804375],
    [0.2126729, 0.7151522, 0.0721750],
    [0.0193339, 0.1191920, 0.9503041],
]
WHITE = [0.95047, 1.0, 1.08883]
# How far apart two shades are at least. A distance of 2 is just seen beside each other.
APART = 9.0


def lab(colour: str, seen: Any) -> Any:
    """The colour in CIELAB that a reader sees."""
    signs = numpy.array([int(colour[at : at + 2], 16) / 255 for at in (1, 3, 5)])
    light = numpy.where(signs <= 0.04045, signs / 12.92, ((signs + 0.055) / 1.055) ** 2.4)
    parts = TO_XYZ @ numpy.clip(seen @ light, 0, 1) / WHITE
    x, y, z = numpy.where(parts > 216 / 24389, numpy.cbrt(parts), (24389 / 27 * parts + 16) / 116)
    return numpy.array([116 * y - 16, 500 * (x - y), 200 * (y - z)])


def schemes() -> dict[str, dict[str, str]]:
    """The colours of the page, light and dark, by their names."""
    blocks = re.findall(r":root \{(.*?)\}", (PAGE / "style.css").read_text(), flags=re.S)
    light, dark = (dict(re.findall(r"--([a-z0-9-]+): (#[0-9a-f]{6})", it)) for it in blocks)
    return {"light": light, "dark": {**light, **dark}}


def colourings() -> dict[str, set[str]]:
    """The colours of each colouring, by the names that its shades have."""
    text = (PAGE / "colourings.js").read_text()
    tables = re.findall(r"const (USE|BOTTLENECK|CHANGE) = \[(.*?)\n\];", text, flags=re.S)
    found = {name: set(re.findall(r'ink: "([a-z0-9-]+)"', rows)) for name, rows in tables}
    for name in "USE", "BOTTLENECK":
        found[name].add("limit")
    found["WORTH"] = {f"worth-{rank}" for rank in range(1, 5)} | {"unused"}
    return found


@pytest.mark.parametrize("reader", SEEN)
@pytest.mark.parametrize("scheme", ["light", "dark"])
def test_shades_stay_apart(scheme: str, reader: str) -> None:
    colours, near = schemes()[scheme], []
    assert {name: len(inks) for name, inks in colourings().items()} == {
        "USE": 6,
        "BOTTLENECK": 3,
        "CHANGE": 5,
        "WORTH": 5,
    }
    for name, inks in colourings().items():
        for one, other in itertools.combinations(sorted(inks), 2):
            seen = (lab(colours[it], SEEN[reader]) for it in (one, other))
            apart = float(numpy.linalg.norm(next(seen) - next(seen)))
            if apart < APART:
                near.append(f"{name}: {one} and {other} are {apart:.1f} apart")
    assert not near, near


def test_distances() -> None:
    """Black and white are 100 apart, red and green are far apart for most readers and near for
    those without the second kind of cones."""
    black, white = (lab(it, SEEN["all"]) for it in ("#000000", "#ffffff"))
    assert float(numpy.linalg.norm(white - black)) == pytest.approx(100, abs=0.1)
    red, green = "#b04030", "#607020"
    far = [numpy.linalg.norm(lab(red, it) - lab(green, it)) for it in SEEN.values()]
    assert far[2] < far[0] / 2
