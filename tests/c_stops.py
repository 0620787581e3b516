"""Stops of the C library by ctypes, each a hold of a flag that ends solves and questions."""

from __future__ import annotations

from ctypes import byref, c_void_p
from typing import Any

from c_arrays import ODD_NUMBER
from c_library import CSession, Library, header_calls, want

OK, STOPPED = 0, 16
# The questions that have a call with a stop, too.
QUESTIONS = {
    name.removeprefix("dmf_session_").removesuffix("_until")
    for name in header_calls()
    if name.endswith("_until")
} - {"solve"}


class Stop:
    """A stop with a flag of its own, or with that of another stop."""

    def __init__(self, library: Library, shared: Stop | None = None) -> None:
        self.calls = library.calls
        self.at = c_void_p(ODD_NUMBER)
        status = (
            self.calls.dmf_stop_share(shared.at, byref(self.at))
            if shared
            else self.calls.dmf_stop_new(byref(self.at))
        )
        assert (status == OK) == (self.at.value not in (None, ODD_NUMBER))
        want(status)

    def solve(self, session: CSession) -> int:
        return int(self.calls.dmf_session_solve_until(session.session, self.at))

    def set(self, word: str) -> None:
        getattr(self.calls, f"dmf_stop_{word}")(self.at)


class Stoppable(CSession):
    """The same session of the library, whose questions are asked with a stop. The other object
    frees it."""

    def __init__(self, session: CSession, stop: Stop) -> None:
        super().__init__(session.calls, session.session)
        self.stop = stop

    def _question(self, name: str) -> Any:
        call = getattr(self.calls, f"dmf_session_{name}_until")
        return lambda *words: call(*words, self.stop.at)
