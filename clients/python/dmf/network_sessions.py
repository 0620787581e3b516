"""The end of a network's session, and the beginning of a new one."""

from __future__ import annotations

import contextlib

from .columns import Node
from .errors import SessionEnded
from .network_gains import GrowingNetwork


class RestartableNetwork(GrowingNetwork[Node]):
    """A network whose session can be ended, and begun again in the same state."""

    def end(self) -> None:
        """End the session. The network answers nothing after that.

        Examples
        --------
        >>> network = Network([("a", "b", 3)], "a", "b")
        >>> network.end()
        >>> network.solve()
        Traceback (most recent call last):
        ...
        dmf.SessionEnded: the session was ended
        """
        if not self._session.is_owned or self._why_over:
            return
        if self._is_running:
            with contextlib.suppress(SessionEnded):
                self._settle()
        self._why_over = "the session was ended" if self._is_broken else self._session.why_ended
        self._session.end()

    def begin_again(self) -> int:
        """Begin a new session if the last one has ended: by `end`, or since the program failed.

        The network is as it was, with each flow and all that can be undone and redone: the new
        session takes the first problem and the commands that led here, and takes as long as those
        took together. A session that goes on stays as it is.

        Returns
        -------
        int
            The value of the flow.

        Raises
        ------
        Error
            What making a network raises.

        Examples
        --------
        >>> network = Network([("a", "b", 3)], "a", "b")
        >>> value = network.solve().value
        >>> network.end()
        >>> network.begin_again()
        3
        """
        if not self._is_running:
            self._why_over, self._is_broken = "", True
        self._ready()
        return self.value
