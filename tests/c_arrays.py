"""Arrays that calls of the C library read and write."""

from __future__ import annotations

import ctypes
from collections.abc import Sequence

# What stands in each place that a call may write before the call.
ODD = 0xA5
ODD_NUMBER = 0xA5A5_A5A5


def odd_array(
    kind: type[ctypes._SimpleCData[int]], count: int
) -> ctypes.Array[ctypes._SimpleCData[int]]:
    """An array with odd numbers, and with one place after its last, which stays odd."""
    array = (kind * (count + 1))()
    ctypes.memset(array, ODD, ctypes.sizeof(array))
    return array


def array_of(
    kind: type[ctypes._SimpleCData[int]], numbers: Sequence[int]
) -> ctypes.Array[ctypes._SimpleCData[int]] | None:
    """Return an array of these numbers, or NULL if there are none."""
    return (kind * len(numbers))(*numbers) if numbers else None
