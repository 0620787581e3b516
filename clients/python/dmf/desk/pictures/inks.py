"""The colours and the thickness of lines on white paper, by use: those of the page."""

from __future__ import annotations

from collections.abc import Sequence
from typing import NamedTuple

from .looks import CLOSED, FLOWS, FULL, LIMIT, MOST, Mark

# Colours by the names that the page's style sheet has for them.
INKS = {
    "ink": "#1b1b1b",
    "limit": "#c8430b",
    "unused": "#8a929b",
    "side": "#d3e4f5",
    "use-1": "#6494c9",
    "use-2": "#3d78bd",
    "use-3": "#1b5297",
    "use-4": "#0b2a54",
}
# The thickness of the narrowest line, in pixels, and how much thicker the widest is; the usual
# length of lines that are this thick, and by what factors they are thinner or thicker at most.
NARROWEST, WIDENED, USUAL, THINNER, THICKER = 1.3, 5.7, 55.0, 0.55, 1.5


class Shade(NamedTuple):
    """An entry of the legend: its words, its colour, and whether its lines are dashed."""

    words: str
    ink: str
    is_dashed: bool = False


BOTTLENECK, ALL_USED = Shade("bottleneck", "limit"), Shade("full", "use-4")
MUCH, HALF, LITTLE = (
    Shade("80–99 %", "use-3"),
    Shade("50–79 %", "use-2"),
    Shade("under 50 %", "use-1"),
)
SHUT, IDLE = Shade("closed", "unused", True), Shade("no flow", "unused")
# In the order of the legend.
SHADES = (BOTTLENECK, ALL_USED, MUCH, HALF, LITTLE, SHUT, IDLE)


def shade_of(mark: Mark) -> Shade:
    """Return the shade of an arc by its use."""
    if mark.state == FLOWS:
        return MUCH if mark.use >= "8" else HALF if mark.use >= "5" else LITTLE
    return {LIMIT: BOTTLENECK, FULL: ALL_USED, CLOSED: SHUT}.get(mark.state, IDLE)


def thickness(mark: Mark) -> float:
    """Return the thickness of a line in pixels, in a picture whose lines have the usual length."""
    return NARROWEST + WIDENED * int(mark.width) / MOST


def thicker(lengths: Sequence[float]) -> float:
    """Return the factor by which lines are thicker if they have these lengths, in pixels."""
    usual = sorted(lengths)[len(lengths) // 2] if lengths else USUAL
    return min(THICKER, max(THINNER, usual / USUAL))
