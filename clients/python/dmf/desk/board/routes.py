"""A board: what a page in the browser shows of a desk, and does to it.

It refuses a malformed request with 400, one that the desk refuses with 409, and any with 410 if the
session has ended and no other one could be begun. Each answer in JSON has the desk's turn, by which
a page sees that the state it shows is old, and each change has the turn that its page shows.
"""

from __future__ import annotations

import contextlib
import threading
from collections.abc import Callable, Iterator, Mapping
from functools import partial
from typing import Any, cast
from urllib.parse import parse_qsl

from ...quantity import moved
from ..pictures.layout import Spot
from ..project.scenarios import Scenarios, project_of
from ..steps import DeskFault, unforeseen
from ..workspace import Desk
from .responses import (
    PAGE,
    Answering,
    Json,
    Made,
    Response,
    WrongForm,
    answer,
    judge_words,
    judged_addresses,
    whole,
)
from .route_table import KEEP, ROUTES, Effect, PageRoute
from .shown import CHANGED, Shown
from .views import state_view

Keep = Callable[[str, Desk], Desk]
STOPPED = "it was stopped"
NO_PAGE = {"error": "no such page"}


class Board:
    """The answers to a page's requests about a desk."""

    page = PAGE

    def __init__(
        self,
        desk: Desk,
        spots: Mapping[int, Spot] | None = None,
        *,
        keep: Keep | None = None,
        offer: str = "",
    ) -> None:
        """Show a desk. `spots` has the spots of places in the picture, by their nodes, if they are
        known; otherwise a project may have them. `keep` makes a project of the desk in the file
        `offer`."""
        self._keep_in, self._offer = keep, offer if keep else ""
        # Whether something is being done that can be stopped.
        self._is_busy = False
        self._busy_lock = threading.Lock()
        self.desk = desk
        self.shown = Shown(desk, spots or {})

    def keep(self) -> None:
        """Keep the steps in a new project, and show that from now on."""
        if not self._keep_in or Scenarios.of(self.desk):
            raise DeskFault("a project cannot be made of this")
        before = self.desk
        made = self._keep_in(self._offer, before)
        try:
            shown = Shown(made, {}, self.shown.placement)
        except BaseException:
            project_of(made).file.discard()
            made.end()
            raise
        self.desk, self.shown = made, shown
        before.end()

    @property
    def turn(self) -> int:
        """Return the number of the state that pages show."""
        return self.desk.turn

    @property
    def picture_version(self) -> int:
        """Return the number of the picture's layout."""
        return self.shown.placement.version

    @property
    def successor(self) -> Answering:
        """Return what answers the next request."""
        return self

    def end(self) -> None:
        """End what goes on beside the requests."""
        self.shown.worth_finder.end()

    def upload(self, words: dict[str, str], data: bytes) -> Response:
        """Refuse a file, since the network is open."""
        return answer(NO_PAGE, 404)

    def get(self, path: str, words: dict[str, str]) -> Response:
        """Return the answer to a request that changes nothing."""
        route = ROUTES.get(path)
        if route is None or route.judge:
            return answer(NO_PAGE, 404)
        judge_words(words, tuple(route.fields), route.optional)
        # What can be stopped is not tried again.
        tries, needs_flows = 1 if route.can_stop else 2, path != "state"
        return self._judged(partial(self._read, route, words), tries, needs_flows)

    def _read(self, route: PageRoute, words: Mapping[str, str]) -> Made:
        """Return what a route reads, by the words of an address."""
        fields: dict[str, Any] = dict(words)
        for name in (it for it in words if route.fields[it] is int):
            fields[name] = whole(words[name], name)
        if "turn" in fields:
            self._judge_turn(fields.pop("turn"))
        made: Made
        if route.can_stop:
            # It takes the session to other scenarios and back.
            self.shown.sweeps.end()
            with self._stoppable():
                made = route.handler(self, **fields)
        else:
            made = route.handler(self, **fields)
        return made

    def post(self, path: str, content: Json) -> Response:
        """Return the answer to a request that changes something, or tries it."""
        if path == "do":
            what = content.pop("what", None)
            path = f"do/{what}"
            if not isinstance(what, str) or path not in ROUTES:
                acts = (name[3:] for name in ROUTES if name.startswith("do/"))
                raise WrongForm(f"what must be one of {', '.join(acts)}")
        route = ROUTES.get(path)
        if route is None or route.judge is None:
            return answer(NO_PAGE, 404)
        if route.effect is Effect.CHANGE:
            shown = judged_addresses(content.pop("shown", []))
            route.judge(content)
            return self._judged(partial(self._done, route, content, shown))
        route.judge(content)
        return self._judged(partial(route.handler, self, **content))

    def stop(self) -> Response:
        """Stop what is being done, for another thread that does it. The steps before it are
        kept."""
        with self._busy_lock:
            if self._is_busy:
                self.desk.break_off(STOPPED)
        return answer({})

    def _judged(
        self, make: Callable[[], Made], tries: int = 1, needs_flows: bool = True
    ) -> Response:
        """Return the answer, or why there is none. If the flows are needed and not known yet, find
        them first. If the session ends meanwhile, begin another one with the steps that were made,
        and try once more if a try is left."""
        told = ""
        while True:
            try:
                if needs_flows and self.desk.flows_follow:
                    with self._stoppable():
                        self.desk.follow()
                made = make()
                return (
                    made
                    if isinstance(made, Response)
                    else answer({"turn": self.desk.turn, "told": told, **made})
                )
            except WrongForm:
                raise
            except Exception as error:
                why = unforeseen(error)
            tries -= 1
            if self.desk.has_ended:
                told = f"{why}. The session was begun again, with the steps that were made"
                try:
                    with self._stoppable():
                        self.desk.begin_again()
                except Exception as error:
                    return answer(
                        {
                            "ended": f"{why}, and it could not be begun again: {unforeseen(error)}",
                            "steps": self.desk.at - 1,
                        },
                        410,
                    )
            if not tries or not told:
                return answer({"error": told or why, "turn": self.desk.turn}, 409)

    def _judge_turn(self, turn: int) -> None:
        """Raise a `DeskFault` if a page shows another state than the present one."""
        if turn != self.desk.turn:
            raise DeskFault(CHANGED)

    def _done(self, route: PageRoute, content: Json, shown: list[str]) -> Json:
        self._judge_turn(content.pop("turn"))
        if self.shown.sweeps.is_going:
            self.shown.sweeps.end()
        self.shown.worth_finder.end()
        self.shown.beginning.heed()
        before = self.desk.value
        with self._stoppable():
            if route is ROUTES[KEEP]:
                self.keep()
            else:
                # Names are accepted in any case.
                self.desk.state.network.names.is_any_case = True
                route.handler(self.desk, content)
        told = {"told": "; ".join(self.desk.take_news()), "moved": moved(before, self.desk.value)}
        state = {**self.state(), **told}
        return {**state, "parts": self._parts(shown)} if shown else state

    def _parts(self, shown: list[str]) -> Json:
        """Return what a page shows beside a state, by the addresses by which it would ask for it.
        If one is refused, the page asks for it, and gets the reason."""
        found: Json = {}
        for address in shown:
            path, _, query = address.partition("?")
            route = ROUTES.get(path)
            if route is None or route.judge or route.can_stop or "turn" in route.fields:
                continue
            with contextlib.suppress(Exception):
                words = dict(parse_qsl(query, keep_blank_values=True))
                judge_words(words, tuple(route.fields), route.optional)
                told = self._read(route, words)
                found[address] = {"turn": self.desk.turn, "told": "", **cast(Json, told)}
        return found

    def state(self) -> Json:
        state = state_view(self.desk, self.shown.words, self._offer)
        return {**state, "can_print": self.shown.can_print}

    @contextlib.contextmanager
    def _stoppable(self) -> Iterator[None]:
        """Let `stop` end the block."""
        with self._busy_lock:
            self._is_busy = True
        try:
            yield
        finally:
            with self._busy_lock:
                self._is_busy = False
