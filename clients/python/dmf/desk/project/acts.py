"""What can be done to a project. Each act is a word and what goes with it, as a line of the journal
has them, and is carried out in one way, whether a desk does it now or a journal is read."""

from __future__ import annotations

from collections.abc import Callable, Collection, Iterable, Mapping
from dataclasses import replace
from decimal import Decimal
from typing import Any

from ...quantity import QuantityFault, plain_text
from ...text.lexical import display
from ...text.spelling import quoted_name
from ...text.table_comments import AT_PLACE
from ..live_network import LiveNetwork
from ..steps import (
    Add,
    Cap,
    Change,
    Close,
    DeskFault,
    Follow,
    MakePlace,
    Place,
    Reopen,
    Shut,
    Solve,
)
from .records import DRAWN, ArcName, PlaceName, Project, Request, Scenario
from .schema import judge_origin, position_of, positions_of, scenario_of, step_of, table_of
from .strict_json import Fields, ProjectFault


def done(project: Project, word: str, content: Any, place: str) -> Project:
    """Return a project after an act. Raise a `ProjectFault`, with the place of what is wrong, if
    the act cannot be done."""
    if word not in _ACTS:
        raise ProjectFault(f"{place}: {word!r} is not an act on a project")
    return replace(_ACTS[word](project, content, place), serial=project.serial + 1)


def _present(project: Project, place: str) -> Scenario:
    scenario = project.scenario(project.present)
    if scenario is None:
        raise ProjectFault(f"{place}: no scenario is called {project.present!r}")
    return scenario


def _text(content: Any, place: str) -> str:
    if type(content) is not str:
        raise ProjectFault(f"{place}: expected a text")
    return content


def _with(project: Project, before: Scenario, **changes: Any) -> Project:
    """Return a project in which a scenario is another one."""
    after = replace(before, **changes)
    return replace(
        project, scenarios=tuple(after if it is before else it for it in project.scenarios)
    )


def _step(project: Project, content: Any, place: str) -> Project:
    """Add a step, and drop those that were undone."""
    scenario = _present(project, place)
    steps = (*scenario.steps[: scenario.at], step_of(content, place))
    return _with(project, scenario, steps=steps, at=len(steps))


def _at(project: Project, content: Any, place: str) -> Project:
    """Move to the state after `content` steps; the later ones count as undone."""
    scenario = _present(project, place)
    if type(content) is not int or not scenario.inherited <= content <= len(scenario.steps):
        why = (
            f"{content!r} is not a number of steps from {scenario.inherited} to "
            f"{len(scenario.steps)}"
        )
        raise ProjectFault(f"{place}: {why}")
    return _with(project, scenario, at=content)


def _new(project: Project, content: Any, place: str) -> Project:
    """Add a scenario, which is the present one then."""
    scenario = scenario_of(content, place)
    if project.scenario(scenario.name):
        raise ProjectFault(f"{place}: a scenario called {scenario.name!r} already exists")
    return replace(project, scenarios=(*project.scenarios, scenario), present=scenario.name)


def _go(project: Project, content: Any, place: str) -> Project:
    """Make another scenario the present one."""
    name = _text(content, place)
    if not project.scenario(name):
        raise ProjectFault(f"{place}: no scenario is called {name!r}")
    return replace(project, present=name)


def _name(project: Project, content: Any, place: str) -> Project:
    """Rename the present scenario."""
    name, scenario = _text(content, place), _present(project, place)
    if project.scenario(name):
        raise ProjectFault(f"{place}: a scenario called {name!r} already exists")
    before = scenario.name
    named = [replace(it, name=name) if it is scenario else it for it in project.scenarios]
    found = [replace(it, begun_from=name) if it.begun_from == before else it for it in named]
    return replace(project, scenarios=tuple(found), present=name)


def _delete(project: Project, content: Any, place: str) -> Project:
    """Delete a scenario other than the present one."""
    name = _text(content, place)
    scenario = project.scenario(name)
    if scenario is None or name == project.present:
        raise ProjectFault(
            f"{place}: {name!r} is {'the present scenario' if scenario else 'not a scenario'}"
        )
    return replace(project, scenarios=tuple(it for it in project.scenarios if it is not scenario))


def _carried(project: Project, content: Any, place: str) -> Project:
    """Give a scenario the steps and values that it has after its table has changed."""
    scenario = scenario_of(content, place)
    before = project.scenario(scenario.name)
    if before is None:
        raise ProjectFault(f"{place}: no scenario is called {scenario.name!r}")
    return replace(
        project, scenarios=tuple(scenario if it is before else it for it in project.scenarios)
    )


def _table(project: Project, content: Any, place: str) -> Project:
    """Replace the table and its network."""
    fields = Fields(content, place)
    table, network = table_of(fields.take("table", dict), fields.at("table")), fields.take(
        "network", str
    )
    fields.end()
    return replace(project, table=table, network=network)


def _note(project: Project, content: Any, place: str) -> Project:
    """Give the present scenario a note."""
    return _with(project, _present(project, place), note=_text(content, place))


def _notes(project: Project, content: Any, place: str) -> Project:
    """Give the project notes."""
    return replace(project, notes=_text(content, place))


def _positions(project: Project, content: Any, place: str) -> Project:
    """Give places positions, or remove those that they had."""
    return replace(project, positions=_put(project.positions, content, place))


def _moved(project: Project, content: Any, place: str) -> Project:
    """Give places positions by hand, or take those back."""
    if project.positions_from != DRAWN:
        raise ProjectFault(f"{place}: positions_from is not {DRAWN!r}")
    return replace(project, moved=_put(project.moved, content, place))


def _put(
    before: Mapping[str, tuple[float, ...]], content: Any, place: str
) -> dict[str, tuple[float, ...]]:
    if not isinstance(content, dict):
        raise ProjectFault(
            f"{place}: expected an object, with two numbers or nothing for each place"
        )
    positions = {**before}
    for name, it in content.items():
        if it is None:
            positions.pop(name, None)
        else:
            positions[name] = position_of(it, f"{place}[{name!r}]")
    return positions


def _layout(project: Project, content: Any, place: str) -> Project:
    """Replace all positions, also those of places that were moved by hand."""
    fields = Fields(content, place)
    origin, given = fields.take("from", str), fields.take("positions", dict)
    fields.end()
    judge_origin(origin, fields.at("from"))
    positions = positions_of(given, fields.at("positions"))
    return replace(project, positions=positions, positions_from=origin, moved={})


_ACTS: dict[str, Callable[[Project, Any, str], Project]] = {
    "step": _step,
    "at": _at,
    "new": _new,
    "go": _go,
    "name": _name,
    "delete": _delete,
    "carried": _carried,
    "note": _note,
    "notes": _notes,
    "positions": _positions,
    "moved": _moved,
    "layout": _layout,
    "table": _table,
}


def act_of(content: Any) -> tuple[int, str, Any]:
    """Return the serial number, the word and what goes with it, of a line of a journal."""
    fields = Fields(content, "")
    serial = fields.count("serial")
    words = [word for word in content if word != "serial"]
    if len(words) != 1:
        raise ProjectFault(f"expected one act in a line, got {len(words)}")
    return serial, words[0], content[words[0]]


def place_name(network: LiveNetwork, node: int) -> PlaceName:
    """Return the name of a node's place, or the number of the node if that is not the name of it
    alone."""
    place, label = network.names.place_of(node), network.names.spoken_place(node)
    return label if network.names.places.get(label) == place.entry else place.entry


def place_meant(network: LiveNetwork, name: PlaceName) -> Place:
    """Return the place of a name. Raise a `DeskFault`."""
    if isinstance(name, int):
        return network.names.place_of(name)
    if name not in network.names.places:
        raise DeskFault(f"no place is called {quoted_name(name)}")
    return network.names.place_of(network.names.places[name])


def arc_name(network: LiveNetwork, number: int) -> ArcName:
    """Return an arc by the names of its ends and its own, with its place among several alike; or by
    what it means for a place."""
    role = network.role(number)
    if role:
        return role.kind, place_name(network, role.node)
    line, alike = network.lines[number - 1], network.names.alike(number)
    said = (
        place_name(network, line.tail),
        place_name(network, line.head),
        network.names.arc_name(number),
    )
    return said if len(alike) == 1 else (*said, alike.index(number) + 1)


def arc_told(name: ArcName) -> str:
    """Return an arc's name in a sentence."""
    if len(name) == 2:
        return display(f"what {name[1]} {AT_PLACE[name[0]]}")
    ends = display(f"{name[0]} -> {name[1]}")
    return f"{display(name[2])}, {ends}" if name[2] else ends


def arc_meant(network: LiveNetwork, name: ArcName, unsure: Collection[ArcName] = ()) -> int:
    """Return the arc of a name, open or closed. Raise a `DeskFault` if there is none, or if it may
    be several; of those that are unsure the place among several says nothing."""
    if len(name) == 2:
        return _role_meant(network, *name)
    ends = place_meant(network, name[0]).exit, place_meant(network, name[1]).entry
    alike = network.names.alike_between(*ends, name[2])
    if not alike:
        raise DeskFault(f"no arc is called {quoted_name(arc_told(name))}")
    at: int = name[3] if len(name) == 4 else 1
    if len(name) == 3 and len(alike) > 1 or at > len(alike) or name[:3] in unsure:
        raise DeskFault(f"{quoted_name(arc_told(name))} may be {network.names.list(alike)}")
    return alike[at - 1]


def _role_meant(network: LiveNetwork, kind: str, name: PlaceName) -> int:
    node = place_meant(network, name).entry
    for number, role in network.subject.described.roles.items():
        if (role.kind, role.node) == (kind, node):
            return network.names.alike(number)[0]
    raise DeskFault(f"the table does not say {arc_told((kind, name))}")


def requests_of(network: LiveNetwork, changes: Iterable[Change]) -> list[Request]:
    """Return what was asked for by changes that are not made yet. What follows of them, and each
    solve, is left out."""
    found: list[Request] = []
    made: dict[int, str] = {}

    def end(node: int) -> PlaceName:
        return made.get(node) or place_name(network, node)

    for change in changes:
        if isinstance(change, (Solve, Follow)):
            continue
        if isinstance(change, MakePlace):
            request: Request = ("make", change.name)
            made[network.names.node_count + len(made) + 1] = change.name
        elif isinstance(change, Shut):
            request = ("shut", place_name(network, change.node))
            # The two nodes of a place with a limit are shut together.
            if request in found:
                continue
        elif isinstance(change, Add):
            ends = end(change.tail), end(change.head)
            word = "add back" if change.is_back else "add"
            request = (word, (*ends, change.name or ""), plain_text(change.capacity))
        elif isinstance(change, Cap):
            request = ("cap", arc_name(network, change.arc), plain_text(change.capacity))
        else:
            request = (
                "close" if isinstance(change, Close) else "open",
                arc_name(network, change.arc),
            )
        found.append(request)
    return found


def changes_of(
    network: LiveNetwork, requests: Collection[Request], unsure: Collection[ArcName] = ()
) -> list[Change]:
    """Return the changes that requests mean now. Raise a `DeskFault` if one means nothing, or may
    mean several things."""
    named_new = [named for word, named, *_ in requests if word == "make"]
    making, places = network.ends_of_new(map(MakePlace, named_new))
    made: dict[PlaceName, Place] = dict(zip(named_new, places))
    found: list[Change] = [*making]
    last: Request = ()
    for word, named, *amounts in requests:
        if word == "make":
            continue
        if word == "shut":
            place = place_meant(network, named)
            if not any(
                not it.is_closed and (it.tail in place or it.head in place) for it in network.lines
            ):
                raise DeskFault(f"no arc is open at {quoted_name(network.names.node(place.entry))}")
            found += [Shut(node) for node in dict.fromkeys(place)]
        elif word in ("add", "add back"):
            tail, head = (made.get(it) or place_meant(network, it) for it in named[:2])
            most, is_back = _amount(network, amounts[0]), word == "add back"
            if is_back and last != ("add", (named[1], named[0], named[2])):
                raise DeskFault("it adds a way back, and not the way there before it")
            found.append(Add(tail.exit, head.entry, most, named[2] or None, is_back))
        else:
            number = arc_meant(network, named, unsure)
            line = network.lines[number - 1]
            if line.is_closed != (word == "open"):
                raise DeskFault(
                    f"{network.names.arc(number)} is {'closed' if line.is_closed else 'open'}"
                )
            if word == "cap":
                found.append(Cap(number, _amount(network, amounts[0])))
            else:
                found.append(Close(number) if word == "close" else Reopen(number))
        last = word, named
    return found


def _amount(network: LiveNetwork, text: str) -> Decimal | int:
    try:
        return network.measure.quantity(network.measure.whole(Decimal(text)))
    except QuantityFault as fault:
        raise DeskFault(f"{text} {fault}") from None
