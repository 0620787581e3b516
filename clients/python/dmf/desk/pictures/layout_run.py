"""A layout of all places that is computed beside the requests of a page, so that none waits for
it."""

from __future__ import annotations

import threading
from collections.abc import Sequence

from .layout import NoPicture, Places, Way

# How long a request waits for a layout that may be there soon, in seconds.
PATIENCE = 0.05


class LayoutRun:
    """A layout that is computed in a thread of its own: of the nodes and arcs of a text for
    Graphviz, to be put into `found`. `version` is that of the picture before it."""

    def __init__(
        self, text: str, nodes: Sequence[int], ways: Sequence[Way], found: Places, version: int
    ) -> None:
        self.version = version
        # Why nothing was found, if so.
        self.fault: Exception | None = None
        self.found = found
        self._thread = threading.Thread(target=self._find, args=(text, nodes, ways), daemon=True)
        self._thread.start()

    def _find(self, text: str, nodes: Sequence[int], ways: Sequence[Way]) -> None:
        try:
            self.found.put(nodes, ways, text)
        except NoPicture as fault:
            self.fault = fault
        except Exception as error:
            self.fault = NoPicture(f"it was not laid out: {error!r}")

    def is_over(self) -> bool:
        """Return True if it is over, or so soon."""
        self._thread.join(PATIENCE)
        return not self._thread.is_alive()
