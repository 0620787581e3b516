"""What a pipe can carry: its cross-section times a velocity, in the unit of flow of its network."""

from __future__ import annotations

from decimal import ROUND_HALF_EVEN, Context, Decimal
from typing import NamedTuple, Optional

_EXACT = Context(prec=60)
PI = Decimal("3.14159265358979323846264338327950288419716939937510582097")
_FOOT, _INCH, _MILLIMETRE = Decimal("0.3048"), Decimal("0.0254"), Decimal("0.001")
_GALLON, _IMPERIAL_GALLON = Decimal("0.003785411784"), Decimal("0.00454609")
_ACRE_FOOT = 43_560 * _FOOT**3
_MINUTE, _HOUR, _DAY = 60, 3600, 86_400
_MILLION = 10**6


class FlowUnit(NamedTuple):
    """A unit of flow: its name, how many of it are a cubic metre in a second, the unit of the
    diameters that stand beside it, and to how many decimals a capacity is rounded."""

    name: str
    per_cubic_metre: Decimal
    diameters: str
    decimals: int = 3


def _unit(name: str, cubic_metres: Decimal, seconds: int, *, is_metric: bool) -> FlowUnit:
    amount = _EXACT.divide(Decimal(seconds), cubic_metres)
    return FlowUnit(name, amount, "mm" if is_metric else "inches", 6 if name == "CMS" else 3)


# The units of EPANET. With the first five diameters are in inches.
FLOW_UNITS = {
    unit.name: unit
    for unit in (
        _unit("CFS", _FOOT**3, 1, is_metric=False),
        _unit("GPM", _GALLON, _MINUTE, is_metric=False),
        _unit("MGD", _MILLION * _GALLON, _DAY, is_metric=False),
        _unit("IMGD", _MILLION * _IMPERIAL_GALLON, _DAY, is_metric=False),
        _unit("AFD", _ACRE_FOOT, _DAY, is_metric=False),
        _unit("LPS", Decimal("0.001"), 1, is_metric=True),
        _unit("LPM", Decimal("0.001"), _MINUTE, is_metric=True),
        _unit("MLD", Decimal(1000), _DAY, is_metric=True),
        _unit("CMH", Decimal(1), _HOUR, is_metric=True),
        _unit("CMD", Decimal(1), _DAY, is_metric=True),
        _unit("CMS", Decimal(1), 1, is_metric=True),
    )
}


def capacity_of(
    diameter: Optional[Decimal], velocity: Optional[Decimal], unit: FlowUnit
) -> Optional[Decimal]:
    """Return what flows through a pipe at a velocity in m/s, rounded to the decimals of the unit;
    None if the diameter or the velocity is not known."""
    if diameter is None or velocity is None:
        return None
    metres = diameter * (_MILLIMETRE if unit.diameters == "mm" else _INCH)
    area = _EXACT.divide(_EXACT.multiply(PI, _EXACT.power(metres, 2)), Decimal(4))
    flow = _EXACT.multiply(_EXACT.multiply(area, velocity), unit.per_cubic_metre)
    return flow.quantize(Decimal(1).scaleb(-unit.decimals), ROUND_HALF_EVEN, _EXACT).normalize(
        _EXACT
    )
