"""What other capacities would bring, for a page on which they are being typed."""

from __future__ import annotations

from ...quantity import moved, plain_text
from ..expressions import capacities
from ..steps import DeskFault
from ..workspace import Desk
from .responses import Json


def trial_view(desk: Desk, arc: int, capacity: str, back: str) -> Json:
    """Return the greatest value if an arc had these capacities, and how much is gained or lost; or
    why the texts give none. The desk stays as it is."""
    try:
        with desk.aside() as other:
            other.cap_each(capacities(other, arc, capacity, back))
            other.solve()
            value = other.value
    except DeskFault as fault:
        return {"value": "", "moved": "", "why_not": str(fault)}
    return {"value": plain_text(value), "moved": moved(desk.value, value), "why_not": ""}
