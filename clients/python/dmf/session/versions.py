"""Which versions of the program and of the C library this package works with."""

from __future__ import annotations

from ..errors import NoProgram

# The number of the C library's interface, which `dmf_abi` returns and its file's name ends with.
ABI = 0


def fits(version: str) -> bool:
    """Return True if a program or library of this version has all that this package asks of it: its
    minor version is the same."""
    from .. import __version__

    return version.split(".")[:2] == __version__.split(".")[:2]


def needed() -> str:
    """Return which version this package needs, as the end of a sentence."""
    from .. import __version__

    return f"this package is dmf {__version__}, and needs {'.'.join(__version__.split('.')[:2])}.x"


def other_version(place: str, version: str, advice: str = "") -> NoProgram:
    """Return the exception for a program or library of another version than this package needs."""
    return NoProgram(f"{place} is dmf {version}; {needed()}{advice}")
