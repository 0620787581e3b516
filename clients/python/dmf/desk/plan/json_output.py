"""The answers of dmf-plan as objects of JSON."""

from __future__ import annotations

from ...quantity import Quantity, plain_text
from ...text.events import Json, ends, event_line, event_number
from ...text.table_comments import DEMAND
from ..demands import limited_amounts
from ..pipes import TwoWayPipe
from ..project.comparison import ArcState, Comparison, Standing
from ..project.scenarios import Scenarios
from ..steps import Trial
from ..workspace import Desk
from ..worth import Loss, PairLoss
from .context import Output
from .output import place_lines


class JsonOutput(Output):
    """Answers as JSON objects, one a line. Each has the number of the line that it answers. A
    refusal is one too, and is also written to standard error."""

    def tell(self, *lines: str) -> None:
        self._write("text", {"lines": list(lines)})

    def refusal(self, why: str) -> None:
        self._write("refused", {"why": why})

    def change(self, desk: Desk, before: Quantity, done: str = "") -> None:
        self._write("change", {**_state(desk), "before": _number(desk, before)})

    def limit(self, desk: Desk) -> None:
        names = desk.network.names
        arcs = _arcs(desk, [*desk.cut_arcs()])
        self._write("limit", {**_state(desk), "side": names.side(desk.side()), "arcs": arcs})

    def flows(self, desk: Desk, numbers: list[int], *, with_limit: bool) -> None:
        self._write("flow", {**_state(desk), "arcs": _arcs(desk, numbers)})

    def places(self, desk: Desk) -> None:
        node = desk.network.names.node
        demands = [
            {
                "place": node(place),
                "flow": _number(desk, it.flow),
                "demand": _number(desk, it.limit),
                "short": _number(desk, it.short),
            }
            for place, it in limited_amounts(desk, DEMAND).items()
        ]
        self._write("text", {"lines": place_lines(desk), "demands": demands})

    def steps(self, desk: Desk) -> None:
        at = desk.at
        steps = [{"text": step.text, "value": _number(desk, step.value)} for step in desk.steps]
        self._write("steps", {"at": at, "made": steps[:at], "undone": steps[at:]})

    def trials(self, desk: Desk, trials: list[Trial]) -> None:
        told = [
            {
                "arc": arc,
                "closed": _number(desk, it.closed),
                "doubled": None if it.doubled is None else _number(desk, it.doubled),
            }
            for it, arc in zip(trials, _arcs(desk, [it.arc for it in trials]))
        ]
        self._write("sweep", {**_state(desk), "trials": told})

    def worst(self, desk: Desk, losses: list[Loss], more: int) -> None:
        self._write("worth", {**_state(desk), **_losses(desk, losses), "more": more})

    def worst_places(self, desk: Desk, losses: list[Loss], more: int) -> None:
        self._write("worth", {**_state(desk), **_losses_of_places(desk, losses), "more": more})

    def worst_pairs(self, desk: Desk, losses: list[PairLoss]) -> None:
        told = [{"arcs": _arcs(desk, [*it.numbers]), **_loss(desk, it)} for it in losses]
        # The others are not counted.
        self._write("worth", {**_state(desk), "losses": told, "more": None, "together": None})

    def worth_of_place(self, desk: Desk, loss: Loss) -> None:
        said = {**_losses_of_places(desk, [loss]), "together": _number(desk, loss.left)}
        self._write("worth", {**_state(desk), **said})

    def worth(
        self, desk: Desk, losses: list[Loss], together: Quantity, *, is_one_name: bool = True
    ) -> None:
        said = {**_losses(desk, losses), "together": _number(desk, together)}
        self._write("worth", {**_state(desk), **said})

    def what_if(self, desk: Desk, before: Quantity, value: Quantity) -> None:
        numbers = {"before": _number(desk, before), "value": _number(desk, value)}
        self._write("what-if", {**_state(desk), **numbers})

    def scenarios(self, project: Scenarios, *, is_list: bool) -> None:
        found = [
            {
                "name": it.name,
                "from": it.begun_from,
                "note": it.note,
                "at": it.at,
                "steps": [step.text for step in it.steps],
                "left_out": [step.text for step in it.left_out],
            }
            for it in project.project.scenarios
        ]
        self._write("scenarios", {**_state(project.desk), "scenarios": found})

    def comparison(self, found: Comparison) -> None:
        self._write("comparison", _comparison(found))

    def _write(self, event: str, said: Json) -> None:
        self.write(event_line(event, {"line": self.line_number, **said}))


def _number(desk: Desk, amount: Quantity) -> Json:
    return event_number(amount, desk.network.measure)


def _state(desk: Desk) -> Json:
    """Return what is so after a command."""
    measure = desk.network.measure
    return {
        "value": _number(desk, desk.value),
        "unit": measure.told_unit,
        "greatest": desk.is_greatest,
        "steps": desk.at,
        "scenario": desk.state.scenario or None,
        "scale": plain_text(measure.divisor),
    }


def _losses(desk: Desk, losses: list[Loss]) -> Json:
    """Return what is lost without each of some arcs. `more` is how many others cost something, and
    `together` the value without all of these, if that was asked for."""
    arcs = _arcs(desk, [it.number for it in losses])
    told = [{"arc": arc, **_loss(desk, it)} for arc, it in zip(arcs, losses)]
    return {"losses": told, "more": 0, "together": None}


def _losses_of_places(desk: Desk, losses: list[Loss]) -> Json:
    """Return the same of places."""
    told = [{"place": desk.network.names.node(it.number), **_loss(desk, it)} for it in losses]
    return {"losses": told, "more": 0, "together": None}


def _loss(desk: Desk, loss: Loss | PairLoss) -> Json:
    return {"without": _number(desk, loss.left), "loss": _number(desk, loss.loss)}


def _arcs(desk: Desk, numbers: list[int]) -> list[Json]:
    """Return each of these pipes as it is. One that leads both ways has a capacity for each, and a
    flow below 0 if that goes back."""
    network, limit = desk.network, desk.cut_arcs() if desk.is_greatest else {}
    names, found = network.names, []
    for number, flow in zip(numbers, desk.flows_on(numbers)):
        pipe = network.pipe(number)
        is_two_way = isinstance(pipe, TwoWayPipe)
        found.append(
            {
                "number": number,
                "name": names.arc_name(number),
                **ends(network.role(number), pipe.tail, pipe.head, names.node),
                "capacity": _number(desk, pipe.room(1)),
                **({"capacity_back": _number(desk, pipe.room(-1))} if is_two_way else {}),
                "flow": _number(desk, flow),
                "closed": pipe.is_closed,
                "unlimited": pipe.is_unlimited,
                "limit": number in limit,
            }
        )
    return found


def _comparison(found: Comparison) -> Json:
    """Return a comparison as an object of JSON."""

    def standing(it: Standing) -> Json:
        return {
            "scenario": it.name,
            "value": event_number(it.value, found.measure),
            "side": list(it.side),
            "limit": list(it.limit),
        }

    def state(it: ArcState) -> Json:
        amounts = {
            "capacity": event_number(it.capacity, found.measure),
            "flow": event_number(it.flow, found.measure),
        }
        return {"state": it.state, **amounts, "limit": it.is_limit, "unlimited": it.is_unlimited}

    return {
        "unit": found.measure.told_unit,
        "scale": plain_text(found.measure.divisor),
        "first": standing(found.first),
        "second": standing(found.second),
        "arcs": [
            {"arc": it.arc, "first": state(it.first), "second": state(it.second)}
            for it in found.arcs
        ],
    }
