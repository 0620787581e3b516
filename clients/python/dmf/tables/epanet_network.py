"""The nodes and links of a network of EPANET, read from the sections of its file, with the unit of
its flows."""

from __future__ import annotations

import re
from collections.abc import Mapping, Sequence
from dataclasses import dataclass, field
from decimal import Decimal
from typing import Optional

from ..errors import TableFault
from ..quantity import plain_text
from ..text.spelling import near, quoted_name
from .epanet_sections import Line
from .pipe_capacity import FLOW_UNITS, FlowUnit
from .sheet import Faults, Positions

# Valves that let nothing back.
ONE_WAY_VALVES = {"PRV", "PSV", "FCV"}
VALVES = ONE_WAY_VALVES | {"PBV", "TCV", "GPV", "PCV"}
OPEN, CLOSED, CHECK = "OPEN", "CLOSED", "CV"
_NUMBER = re.compile(r"[+-]?(?:[0-9]+\.?[0-9]*|\.[0-9]+)(?:[eE][+-]?[0-9]{1,3})?")


@dataclass
class Link:
    """A pipe, a pump or a valve."""

    line: int
    name: str
    ends: tuple[str, str]
    kind: str
    length: Optional[Decimal] = None
    diameter: Optional[Decimal] = None
    status: str = OPEN
    # The most that a flow control valve lets through.
    most: Optional[Decimal] = None

    @property
    def is_one_way(self) -> bool:
        """Return True if nothing flows back."""
        return self.kind == "pump" or self.status == CHECK or self.kind in ONE_WAY_VALVES


@dataclass
class Nodes:
    """The nodes by their names, each with its line: what they are, and the demands of junctions."""

    kinds: dict[str, str] = field(default_factory=dict)
    lines: dict[str, int] = field(default_factory=dict)
    demands: dict[str, Decimal] = field(default_factory=dict)

    def of_kind(self, kind: str) -> list[str]:
        """Return the names of the nodes of a kind."""
        return [name for name, it in self.kinds.items() if it == kind]


class EpanetNetwork:
    """A network as it is read: `read` fills its nodes, its links and their positions."""

    def __init__(
        self, sections: Mapping[str, list[Line]], faults: Faults, notes: Sequence[str]
    ) -> None:
        self.sections = sections
        self.faults = faults
        self.nodes = Nodes()
        self.links: dict[str, Link] = {}
        self.positions: Optional[Positions] = None
        self.notes = [*notes]
        self.unit, self.multiplier = self._options()

    def read(self) -> None:
        """Read all sections that have nodes or links. Raises a `TableFault` with their faults."""
        self._read_nodes()
        self._read_links()
        self._read_status()
        self.positions = self._positions()
        self.faults.judge()
        if not self.links:
            raise TableFault("the network has no pipe: the section [PIPES] is missing or empty")

    def lines(self, name: str) -> list[Line]:
        """Return the lines of a section, by how its name begins."""
        return self.sections.get(name, [])

    # What numbers are.

    def _options(self) -> tuple[FlowUnit, Decimal]:
        """Return the unit of flows, and what demands are multiplied by."""
        unit, multiplier = "", Decimal(1)
        for line in self.lines("OPTI"):
            upper = [word.upper() for word in line.words]
            if upper[0] == "UNITS" and upper[1:]:
                unit = upper[1]
                if unit not in FLOW_UNITS:
                    known = ", ".join(FLOW_UNITS)
                    reason = f"{quoted_name(line.words[1])} is not a unit of EPANET, which are"
                    self.faults.add(f"{reason} {known}", line.number)
            if upper[:2] == ["DEMAND", "MULTIPLIER"]:
                multiplier = self._number(line, 2, "a demand multiplier") or Decimal(1)
        self.faults.judge()
        if not unit:
            self.notes.append("[OPTIONS] names no UNITS, which EPANET reads as GPM")
        if multiplier != 1:
            told = plain_text(multiplier)
            self.notes.append(f"demands are multiplied by {told}, as [OPTIONS] says")
        return FLOW_UNITS[unit or "GPM"], multiplier

    def _number(self, line: Line, at: int, what: str) -> Optional[Decimal]:
        """Return the number that stands at a place of a line; a fault if there is none."""
        word = line.words[at] if at < len(line.words) else ""
        if _NUMBER.fullmatch(word):
            return Decimal(word)
        told = f"{quoted_name(word)} is not {what}" if word else f"{what} is missing"
        self.faults.add(told, line.number)
        return None

    def _has_words(self, line: Line, least: int, form: str) -> bool:
        """Return True if a line has at least `least` words; otherwise note the fault."""
        if len(line.words) < least:
            count = len(line.words)
            self.faults.add(f"{count} of the {least} fields that are needed: {form}", line.number)
        return len(line.words) >= least

    # Nodes.

    def _read_nodes(self) -> None:
        for name, kind, form in (
            ("JUNC", "junction", "name, elevation"),
            ("RESE", "reservoir", "name, head"),
            ("TANK", "tank", "name, elevation"),
        ):
            for line in self.lines(name):
                if self._has_words(line, 1 if kind == "junction" else 2, form):
                    self._add_node(line, kind)
        of_section: dict[str, list[Decimal]] = {}
        for line in self.lines("DEMA"):
            if line.words[0].upper() == "MULTIPLY":
                self.faults.add(
                    "MULTIPLY is of EPANET 1; write the demands themselves", line.number
                )
            elif self._is_node(line, 0, "demand"):
                demand = self._number(line, 1, "a demand")
                of_section.setdefault(line.words[0], []).append(demand or Decimal(0))
        # The section of demands stands in place of the demand in the line of a junction.
        self.nodes.demands |= {
            name: sum(demands, Decimal(0)) for name, demands in of_section.items()
        }

    def _add_node(self, line: Line, kind: str) -> None:
        name = line.words[0]
        if name in self.nodes.kinds:
            first = f"{self.nodes.kinds[name]} in line {self.nodes.lines[name]}"
            self.faults.add(f"{quoted_name(name)} is the name of a {first} too", line.number)
            return
        self.nodes.kinds[name], self.nodes.lines[name] = kind, line.number
        if kind == "junction" and len(line.words) > 2:
            self.nodes.demands[name] = self._number(line, 2, "a demand") or Decimal(0)

    def _is_node(self, line: Line, at: int, what: str) -> bool:
        name = line.words[at]
        if name in self.nodes.kinds:
            return True
        hint = near(name, self.nodes.kinds)
        told = f"{quoted_name(name)}, where a {what} is, is not a node of the file{hint}"
        self.faults.add(told, line.number)
        return False

    # Links.

    def _read_links(self) -> None:
        for line in self.lines("PIPE"):
            if self._has_words(line, 5, "name, two nodes, length, diameter"):
                self._add_link(line, self._pipe(line))
        for line in self.lines("PUMP"):
            if self._has_words(line, 3, "name, two nodes"):
                self._add_link(line, self._link(line, "pump"))
        for line in self.lines("VALV"):
            if self._has_words(line, 5, "name, two nodes, diameter, type"):
                self._add_link(line, self._valve(line))

    def _link(self, line: Line, kind: str) -> Link:
        return Link(line.number, line.words[0], (line.words[1], line.words[2]), kind)

    def _add_link(self, line: Line, link: Link) -> None:
        if other := self.links.get(link.name):
            told = f"{quoted_name(link.name)} is the name of the {other.kind} in line {other.line}"
            self.faults.add(f"{told} too", line.number)
            return
        is_known = [self._is_node(line, at, f"{link.kind}'s end") for at in (1, 2)]
        if all(is_known) and line.words[1] == line.words[2]:
            self.faults.add(f"the {link.kind} begins and ends at one node", line.number)
        self.links[link.name] = link

    def _diameter(self, line: Line, at: int) -> Optional[Decimal]:
        diameter = self._number(line, at, "a diameter")
        if diameter is not None and diameter < 0:
            self.faults.add(f"the diameter {quoted_name(line.words[at])} is below 0", line.number)
        return diameter or None

    def _pipe(self, line: Line) -> Link:
        pipe = self._link(line, "pipe")
        pipe.length = self._number(line, 3, "a length")
        before = self.faults.count
        pipe.diameter = self._diameter(line, 4)
        if pipe.diameter is None and self.faults.count == before:
            self.faults.add("the pipe has the diameter 0", line.number)
        # The status is the eighth field, or the seventh if there is no loss coefficient.
        for word in line.words[6:8]:
            if word.upper() in (OPEN, CLOSED, CHECK):
                pipe.status = word.upper()
            elif not _NUMBER.fullmatch(word):
                told = f"{quoted_name(word)} is not a status, which is OPEN, CLOSED or CV"
                self.faults.add(told, line.number)
        return pipe

    def _valve(self, line: Line) -> Link:
        kind = line.words[4].upper()
        valve = self._link(line, kind)
        valve.diameter = self._diameter(line, 3)
        if kind not in VALVES:
            known = ", ".join(sorted(VALVES))
            told = f"{quoted_name(line.words[4])} is not a type of valve, which are {known}"
            self.faults.add(told, line.number)
        if kind == "FCV":
            valve.most = self._number(line, 5, "a flow")
        return valve

    def _read_status(self) -> None:
        """Read the section of states: a number is the speed of a pump or the setting of a valve."""
        for line in self.lines("STAT"):
            if not self._has_words(line, 2, "name, status"):
                continue
            name, word = line.words[0], line.words[1].upper()
            link = self.links.get(name)
            if link is None:
                hint = near(name, self.links)
                self.faults.add(f"{quoted_name(name)} is not a link of the file{hint}", line.number)
            elif word in (OPEN, CLOSED) and link.status != CHECK:
                link.status = word
                link.most = link.most if word == CLOSED else None
            elif link.status == CHECK:
                self.faults.add("a check valve has no other status", line.number)
            elif (
                number := self._number(line, 1, "a status: OPEN, CLOSED or a number")
            ) is not None:
                self._set(link, number)

    @staticmethod
    def _set(link: Link, setting: Decimal) -> None:
        link.status = CLOSED if link.kind == "pump" and setting == 0 else OPEN
        if link.kind == "FCV":
            link.most = setting

    def _positions(self) -> Optional[Positions]:
        spots: dict[str, tuple[float, float]] = {}
        for line in self.lines("COOR"):
            if self._has_words(line, 3, "node, x, y") and self._is_node(line, 0, "coordinate"):
                x, y = (self._number(line, at, "a coordinate") for at in (1, 2))
                if x is not None and y is not None:
                    spots[line.words[0]] = float(x), float(y)
        return Positions(spots) if spots else None
