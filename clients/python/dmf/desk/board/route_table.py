"""The requests that a page can make: what each has for fields, and what answers it."""

from __future__ import annotations

from collections.abc import Callable
from enum import Enum
from functools import partial
from typing import Any, NamedTuple

from ..workspace import Desk
from .actions import ACTS, SCENARIO_ACTS
from .place_views import end_view, place_view
from .responses import Fields, Json, WrongForm, judge_arcs, judge_fields
from .shown import Shown
from .trials import trial_view
from .views import arc_view, costs_view, many_view, scenarios_view

# The most arcs in one request for second ones.
MOST_TRIED = 5_000
KEEP = "do/keep"


class Effect(Enum):
    """The effect of a request: it reads; it changes what the page shows; or it tries something
    out."""

    READ = "reads"
    CHANGE = "changes"
    TRY = "tries"


class PageRoute(NamedTuple):
    """A route: the fields of its requests, with the type of each; its handler; its effect; whether
    it can be stopped; the function that checks a posted request, if it is posted; and the fields
    that an address may leave out."""

    fields: Fields
    handler: Callable[..., Any]
    effect: Effect = Effect.READ
    can_stop: bool = False
    judge: Callable[[Json], None] | None = None
    optional: tuple[str, ...] = ()


def _judge_tried(content: Json) -> None:
    """Raise a `WrongForm` if these are not arcs to try, and the turn."""
    kinds = {name: type(given) for name, given in content.items()}
    if kinds != {"arcs": list, "turn": int}:
        raise WrongForm(f"expected a list of at most {MOST_TRIED} arcs, and the turn")
    judge_arcs(content["arcs"], MOST_TRIED)


def _change(fields: Fields, act: Callable[[Desk, Json], object]) -> PageRoute:
    """Return the route of a change of the desk, which says which turn the page shows."""
    return PageRoute(
        fields, act, Effect.CHANGE, True, partial(judge_fields, form={**fields, **TURN})
    )


def _nothing(desk: Desk, content: Json) -> None:
    """Do nothing to the desk."""


def _part(handler: Callable[..., Any]) -> Callable[..., Any]:
    """Return the handler of a request for a part of the page."""
    return lambda board, **fields: handler(board.shown, **fields)


def _view(handler: Callable[..., Any]) -> Callable[..., Any]:
    """Return the handler of a request for something of the desk."""
    return lambda board, **fields: handler(board.desk, **fields)


TURN: Fields = {"turn": int}
NEAR: Fields = {"near": str}
FORM: Fields = {"form": int}
TWO: Fields = {"one": str, "two": str}
PART: Fields = {"first": int, "count": int}
ROWS: Fields = {"filter": str, "sort": str, **PART}
COSTS: Fields = {"column": str, "to": str, "second": str}
TRIAL: Fields = {"arc": int, "capacity": str, "back": str}
ARCS: Fields = {"arcs": list, **TURN}
MOVE: Fields = {"node": int, "right": int, "down": int, **FORM, **TURN}
TIDY: Fields = {**NEAR, **FORM, **TURN}
READ = {
    "turn": PageRoute({}, lambda board: {}),
    "state": PageRoute({}, lambda board: board.state()),
    "picture": PageRoute({**NEAR, **FORM}, _part(Shown.drawn), optional=(*FORM,)),
    "ground": PageRoute({}, _part(Shown.ground)),
    "looks": PageRoute({}, _part(Shown.looks_of_all)),
    "arc": PageRoute({"number": int}, _view(arc_view)),
    "place": PageRoute({"node": int}, _view(place_view)),
    "find": PageRoute({"text": str}, _part(Shown.found)),
    "end": PageRoute({"text": str}, _view(end_view)),
    "worth": PageRoute({}, _part(Shown.worth)),
    "rows": PageRoute(ROWS, _part(Shown.rows)),
    "numbers": PageRoute(ROWS, _part(Shown.numbers)),
    "scenarios": PageRoute({}, _view(scenarios_view)),
    "picture.svg": PageRoute(
        {**NEAR, **FORM, **TURN}, _part(Shown.picture_file), optional=(*FORM,)
    ),
    "plan.csv": PageRoute(TURN, _part(Shown.table_file)),
    "problem.max": PageRoute(TURN, _part(Shown.problem_file)),
}
# What takes the session to other states, and can be stopped.
STOPPABLE = {
    "trial": PageRoute(TRIAL, _view(trial_view), can_stop=True),
    "costs": PageRoute(COSTS, _view(costs_view), can_stop=True),
    "comparison": PageRoute({**TWO, **PART}, _part(Shown.comparison), can_stop=True),
    "difference": PageRoute(TWO, _part(Shown.difference), can_stop=True),
    "difference.svg": PageRoute({**TWO, **TURN}, _part(Shown.difference_file), can_stop=True),
    "report.html": PageRoute(TURN, _part(Shown.report_file), can_stop=True),
    "report.pdf": PageRoute(TURN, _part(Shown.report_pdf), can_stop=True),
}
# What is posted. Whatever state a page shows, it may ask about arcs.
POSTED = {
    "many": PageRoute(
        ARCS,
        lambda board, arcs, turn: many_view(board.desk, arcs),
        judge=partial(judge_fields, form=ARCS),
    ),
    # These change the picture, and not the network.
    "move": PageRoute(MOVE, _part(Shown.move), judge=partial(judge_fields, form=MOVE)),
    "tidy": PageRoute(TIDY, _part(Shown.begin_layout), judge=partial(judge_fields, form=TIDY)),
    "tidied": PageRoute(TURN, _part(Shown.laid_out), judge=partial(judge_fields, form=TURN)),
    "seconds": PageRoute(ARCS, _part(Shown.seconds), Effect.TRY, judge=_judge_tried),
    **{f"do/{what}": _change(*act) for what, act in ACTS.items()},
    # The board itself keeps the steps.
    KEEP: _change({}, _nothing),
    **{f"do/{what}": _change(*act) for what, act in SCENARIO_ACTS.items()},
}
ROUTES = {**READ, **STOPPABLE, **POSTED}
