"""The numbers of an arc in a picture: in short, in words, and the widest that they may become."""

from __future__ import annotations

import re
from collections.abc import Collection

from ...quantity import POINT, magnitude, plain_text
from ..pipes import TwoWayPipe
from ..workspace import Desk

# The widest digit, and the text that a closed arc has instead of its numbers.
WIDEST, CLOSED = "8", "closed"


def widest_amounts(desk: Desk, number: int) -> str:
    """Return the widest text that an arc's numbers can have as long as its capacity keeps its
    number of digits."""
    network = desk.network
    pipe = network.pipes.pipe(number)
    widest = max((plain_text(pipe.room(way)) for way in (1, -1)), key=len)
    capacity = re.sub("[0-9]", WIDEST, widest)
    decimals = network.measure.decimals
    flow = capacity.partition(POINT)[0] + bool(decimals) * (POINT + WIDEST * decimals)
    return max(f"{flow}/{capacity}", CLOSED, key=len)


def short_amounts(desk: Desk, number: int) -> str:
    """Return the flow on a pipe and its capacity that way, in short."""
    pipe, flow = desk.network.pipes.pipe(number), desk.flow(number)
    told = plain_text(magnitude(flow))
    return (
        CLOSED
        if pipe.is_closed
        else told
        if pipe.is_unlimited
        else f"{told}/{plain_text(pipe.room(flow))}"
    )


def spoken(desk: Desk, number: int, cut: Collection[int]) -> str:
    """Return the flow on a pipe in words, and whether it is one of this bottleneck."""
    return _flow_words(desk, number) + ", bottleneck" * (number in cut)


def _flow_words(desk: Desk, number: int) -> str:
    network = desk.network
    pipe, flow = network.pipe(number), desk.flow(number)
    if pipe.is_closed:
        return CLOSED
    if pipe.is_unlimited:
        return network.told(flow)
    told = (
        network.told_amounts(number, flow)
        if isinstance(pipe, TwoWayPipe)
        else f"{plain_text(flow)} of {network.told(pipe.capacity)}"
    )
    return told + ", full" * pipe.is_full(flow)
