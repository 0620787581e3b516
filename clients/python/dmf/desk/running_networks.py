"""The networks of a desk whose sessions run: the present one, and one on which its steps are made
again; and the first answer, while it is computed."""

from __future__ import annotations

import contextlib
from collections.abc import Sequence

from ..errors import Error
from ..session.base import Program
from ..tables.loader import LoadedProblem
from .answers import FirstAnswer
from .live_network import LiveNetwork
from .steps import Step


class RunningNetworks:
    """The networks whose sessions run. All of them can be ended from another thread. `first` is the
    first answer about the problem, if it is computed by a program."""

    def __init__(self, program: Program = None) -> None:
        self._program = program
        self.first: FirstAnswer | None = None
        self._networks: list[LiveNetwork] = []

    def begin(self, subject: LoadedProblem) -> LiveNetwork:
        """Return a network of a problem, on a session of its own."""
        network = LiveNetwork(subject, self._program)
        self._networks.append(network)
        return network

    def make_again(
        self, subject: LoadedProblem, steps: Sequence[Step]
    ) -> tuple[LiveNetwork, tuple[Step, ...]]:
        """Return a new network on which all these steps were made, and the steps as made there."""
        network = self.begin(subject)
        try:
            return network, tuple(network.make(step.text, step.changes) for step in steps)
        except BaseException:
            network.drop()
            self.leave(network)
            raise

    def leave(self, network: LiveNetwork) -> None:
        """End a network that no state has any more."""
        with contextlib.suppress(Error):
            network.network.end()
        if network in self._networks:
            self._networks.remove(network)

    def break_off(self, why: str) -> None:
        """End every session at once, and the program that finds the first answer, also for threads
        that wait for an answer."""
        if self.first:
            self.first.end()
        for network in [*self._networks]:
            network.break_off(why)
