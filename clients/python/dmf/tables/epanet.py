"""Networks of EPANET (`.inp`): pipes, pumps and valves as rows of arcs, and what reservoirs, tanks
and junctions give and take as rows of places.

A pipe has no capacity in such a file. Its capacity is that of its cross-section at a velocity
(`pipe_capacity`). Pipes and valves lead both ways, except check valves and valves that let nothing
back. Pumps lead one way, and have no limit.
"""

from __future__ import annotations

from collections.abc import Iterator, Sequence
from decimal import Decimal
from functools import partial
from typing import Optional

from ..errors import TableFault
from ..quantity import plain_text
from ..text.spelling import MOST_TOLD, quoted_name
from .epanet_network import ONE_WAY_VALVES, EpanetNetwork
from .epanet_sections import NAMES, TIMED, sections_of
from .pipe_capacity import capacity_of
from .setting_question import SettingQuestion, velocity_question
from .sheet import Exact, Faults, Rows, Sheet, cell_of
from .table_file import Content, TableFile
from .text_bytes import text_of

_ONE_WAY = ", ".join(sorted(ONE_WAY_VALVES))
ARC_TITLES = ["from", "to", "capacity", "name", "status", "direction", "kind", "length", "diameter"]
PLACE_TITLES = ["place", "supply", "demand"]
UNLIMITED = "unlimited"
_TANKS = {"source": "supply without a limit", "none": "only let water through"}


def sheets_of(file: TableFile) -> list[Sheet]:
    """Return the arcs and the places of a network of EPANET. Raises a `TableFault`, and a
    `SettingQuestion` for a velocity or the part of tanks that was not given."""
    network = _network(file)
    network.read()
    return _Sheets(file, network).sheets()


def contents_of(file: TableFile, sheets: Sequence[Sheet], arcs: Optional[Sheet]) -> list[Content]:
    """Return the sections of a network of EPANET that are read, each with the number of its lines
    and what these are read for; nothing if they have a fault."""
    try:
        return _Sheets(file, _network(file)).contents()
    except TableFault:
        return []


def _network(file: TableFile) -> EpanetNetwork:
    text, notes = text_of(file.data, file.encoding)
    faults = Faults(file.path)
    return EpanetNetwork(sections_of(text, faults), faults, notes)


class _Sheets:
    """The rows of arcs and of places that are made of a network."""

    def __init__(self, file: TableFile, network: EpanetNetwork) -> None:
        self.file = file
        self.network = network
        self.notes = network.notes

    def sheets(self) -> list[Sheet]:
        """Return the sheets, once the network is read."""
        self._tell_what_was_taken()
        arcs = self._arc_rows(self._velocity())
        places = self._place_rows()
        path, positions = self.file.path, self.network.positions
        found = [
            Sheet(path, partial(_read, arcs), tuple(self.notes), self._taken(), positions),
        ]
        if len(places) > 1:
            found.append(Sheet(path, partial(_read, places), gives_way=True))
        return found

    def contents(self) -> list[Content]:
        """Return the sections that have lines, and what these are read for."""
        reading, unit = self.file.reading, self.network.unit
        velocity = reading.velocity
        at = f"{plain_text(velocity)} m/s" if velocity else "the velocity that --velocity gives"
        capacity = f"capacity in {unit.name}, from the diameter ({unit.diameters}) at {at}"
        said = {
            "JUNC": "places; the base demand is what they take",
            "RESE": "supply without a limit",
            "TANK": _TANKS.get(reading.tanks, "supply water or let it through, as --tanks says"),
            "PIPE": capacity,
            "PUMP": "lead one way, without a limit",
            "VALV": f"{capacity}; FCV at most its setting; {_ONE_WAY} lead one way",
            "DEMA": f"in place of the demands in {NAMES['JUNC']}",
            "STAT": "what is open, closed or set",
            "COOR": "where places lie in the picture",
            **dict.fromkeys(TIMED, "open and close links in time, and are left out"),
        }
        found = [(name, len(self.network.lines(name)), what) for name, what in said.items()]
        return [Content(NAMES[name], count, what) for name, count, what in found if count]

    def _velocity(self) -> Optional[Decimal]:
        """Return the velocity of the water; none if no link has a diameter. Raises a
        `SettingQuestion`."""
        velocity = self.file.reading.velocity
        if velocity is None and any(link.diameter for link in self.network.links.values()):
            raise velocity_question(self.network.unit.name)
        return velocity

    def _arc_rows(self, velocity: Optional[Decimal]) -> list[tuple[int, list[str]]]:
        unit = self.network.unit
        titles = [f"{it} [{unit.name}]" if it == "capacity" else it for it in ARC_TITLES]
        rows = [(1, titles)]
        for link in sorted(self.network.links.values(), key=lambda link: link.line):
            number = capacity_of(link.diameter, velocity, unit)
            if link.most is not None:
                number = link.most if number is None else min(number, link.most)
            capacity = UNLIMITED if number is None else Exact(plain_text(number))
            way = "one way" if link.is_one_way else "both"
            sizes = [
                "" if it is None else Exact(plain_text(it)) for it in (link.length, link.diameter)
            ]
            names = [self._cell(name) for name in (*link.ends, link.name)]
            state = link.status.lower()
            rows.append(
                (link.line, [*names[:2], capacity, names[2], state, way, link.kind, *sizes])
            )
        return rows

    def _cell(self, name: str) -> str:
        return cell_of(name, is_raw=self.file.reading.raw_names)

    def _place_rows(self) -> list[tuple[int, list[str]]]:
        tanks = self.network.nodes.of_kind("tank")
        if tanks and not self.file.reading.tanks:
            reason = f"what are the tanks ({_listed(tanks)})? A tank gives water and takes it in"
            raise SettingQuestion(reason, "tanks")
        rows = [(1, PLACE_TITLES)]
        for name, kind in self.network.nodes.kinds.items():
            demand = self.network.nodes.demands.get(name, Decimal(0)) * self.network.multiplier
            amount = Exact(plain_text(abs(demand)))
            gives = kind == "reservoir" or kind == "tank" and self.file.reading.tanks == "source"
            if gives or demand:
                supply = "x" if gives else amount if demand < 0 else ""
                cells = [self._cell(name), supply, amount if demand > 0 else ""]
                rows.append((self.network.nodes.lines[name], cells))
        return rows

    def _taken(self) -> str:
        kinds = [link.kind for link in self.network.links.values()]
        counts = [("pipe", kinds.count("pipe")), ("pump", kinds.count("pump"))]
        counts.append(("valve", len(kinds) - sum(count for _, count in counts)))
        told = ", ".join(f"{count} {it}{'s' * (count != 1)}" for it, count in counts if count)
        velocity, unit = self.file.reading.velocity, self.network.unit
        how = f"capacity (in {unit.name}, to {unit.decimals} decimals)"
        if velocity is None:
            return f"a network of EPANET: {told}"
        return (
            f"a network of EPANET: {told}; {how} from the diameter ({unit.diameters}) at"
            f" {plain_text(velocity)} m/s"
        )

    def _tell_what_was_taken(self) -> None:
        gives = self.file.reading.tanks == "source"
        tanks = "tanks supply without a limit" if gives else "tanks only let water through"
        pumps = [link.name for link in self.network.links.values() if link.kind == "pump"]
        for told, names in (
            ("reservoirs supply without a limit", self.network.nodes.of_kind("reservoir")),
            (tanks, self.network.nodes.of_kind("tank")),
            ("pumps lead one way, without a limit", pumps),
        ):
            if names:
                self.notes.append(f"{told}: {_listed(names)}")
        patterned = [line for line in self.network.lines("JUNC") if len(line.words) > 3]
        patterned += [line for line in self.network.lines("DEMA") if len(line.words) > 2]
        if patterned or self.network.lines("PATT"):
            self.notes.append("demands are base demands; patterns are left out")
        for name, told in TIMED.items():
            if self.network.lines(name):
                self.notes.append(f"{told} open and close links in time, and are left out")
        if "END" not in self.network.sections:
            self.notes.append("the file has no [END]; is it whole?")


def _listed(names: Sequence[str]) -> str:
    return ", ".join(map(quoted_name, names[:MOST_TOLD])) + ", .." * (len(names) > MOST_TOLD)


def _read(rows: Sequence[tuple[int, list[str]]]) -> Iterator[Rows]:
    yield Rows([line for line, _ in rows], [list(cells) for _, cells in rows])
