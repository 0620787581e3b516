"""A finer scale for the numbers of a problem, where an amount has more decimals than they have."""

from __future__ import annotations

import re
from dataclasses import replace

from ..quantity import LARGEST, Measure, Quantity, QuantityFault, plain_text
from ..tables.loader import LoadedProblem
from ..text.table_comments import TableComments, table_comments
from .steps import DeskFault

_ARC = re.compile(rb"^([ \t]*a[ \t]+[0-9]+[ \t]+[0-9]+[ \t]+)([0-9]+)", re.MULTILINE)


def finer(subject: LoadedProblem, quantity: Quantity) -> LoadedProblem:
    """Return the subject with the least scale in which a quantity is whole too: itself, or one with
    all capacities times a power of ten. Raise a `DeskFault` if that would take the capacities past
    64 bits."""
    now = subject.measure
    measure = now.finer(quantity)
    try:
        measure.whole(quantity)
    except QuantityFault as fault:
        raise DeskFault(f"{plain_text(quantity)} {fault}") from None
    times = int(measure.scale / now.scale)
    if times == 1:
        return subject
    capacities = [int(found[2]) * times for found in _ARC.finditer(subject.text)]
    if sum(capacities) > LARGEST:
        raise past_64_bits(measure, plain_text(quantity))
    # The first comment that tells a scale counts.
    head = table_comments(TableComments(Measure(measure.scale))).encode()
    following = iter(capacities)
    return replace(
        subject,
        given=head + _ARC.sub(lambda found: found[1] + b"%d" % next(following), subject.text),
        net=None,
    )


def past_64_bits(measure: Measure, what: str = "") -> DeskFault:
    """Return why capacities are too large together."""
    why = f"with the decimals of {what} " if what else ""
    return DeskFault(f"{why}the sum of the capacities would be past {measure.told(LARGEST)}")
