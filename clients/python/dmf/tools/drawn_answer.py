"""Read a problem, its solution and its cut, or what a session wrote, and draw them for Graphviz."""

from __future__ import annotations

import argparse
import io
from collections import defaultdict

from ..files import read_file
from ..text.drawing import Drawing, picture
from ..text.lexical import NODE, Fault, TextFault, fields, lines, read_number
from ..text.problem_text import ArcRecord, Problem, read_problem
from ..text.session_replies import Kind, TranscriptFault, flow_of, kind_of
from ..text.spelling import namings
from ..text.transcript import ANSWER, COMMANDS, TranscriptReader
from .command import Status, ToolFault, warn, write

NAME = "dmf-dot"
LONGEST_TOLD = 60
UNKNOWN = "unknown commands changed the network; give them with --commands FILE"


def fault_in(path: str, fault: TextFault) -> ToolFault:
    """Return the fault of a text, with the file and the field that it is about."""
    name = "standard input" if path == "-" else path
    about = fault.field.decode(errors="replace")
    told = about if len(about) <= LONGEST_TOLD else about[:LONGEST_TOLD] + ".."
    return ToolFault(f"{name}: {fault}{': ' if told else ''}{told}")


def judge_names(text: bytes, problem: Problem) -> None:
    """Raise a `TextFault` for a comment that gives no name, names something a second time, or names
    something that does not exist."""
    line, counted = 1, 0
    named = set()
    for naming in namings(text):
        line, counted = line + text.count(b"\n", counted, naming.start), naming.start
        kind = naming.kind
        try:
            place = read_number(naming.number)
        except Fault as fault:
            raise TextFault(line, fault.reason, fault.field) from None
        if not naming.name:
            raise TextFault(line, f"{kind} {place} has no name here")
        if (kind, place) in named:
            raise TextFault(line, f"{kind} {place} is named twice")
        if not 1 <= place <= (problem.node_count if kind == NODE else len(problem.arcs)):
            raise TextFault(line, f"no such {kind}: {place}")
        named.add((kind, place))


def problem_of(words: argparse.Namespace) -> Problem:
    """Return the problem that the arguments name, after checking its names. Raises a
    `ToolFault`."""
    # A help needs nothing that reads tables.
    from ..tables.loader import read_subject

    subject = read_subject(words, in_doubt=True)
    for note in subject.notes:
        warn(NAME, note)
    try:
        problem = read_problem(subject.text)
        judge_names(subject.text, problem)
    except TextFault as fault:
        raise fault_in(words.path, fault) from None
    return problem


class ProblemAnswer:
    """What the lines of solutions and cuts have said so far. The flows may come in any order, and
    in parts."""

    def __init__(self, problem: Problem) -> None:
        self.problem = problem
        self.arcs = [ArcRecord(*arc) for arc in problem.arcs]
        self.capacities: dict[tuple[int, int], int] = defaultdict(int)
        self.flow_sums: dict[tuple[int, int], int] = defaultdict(int)
        for tail, head, capacity in problem.arcs:
            self.capacities[tail, head] += capacity
        self.has_value = False
        self.told: list[tuple[int, int, int]] = []
        self.flows: list[int] | None = None
        # The capacity of the cut, and the number of its line.
        self.cut: tuple[int, int] | None = None
        self.side: set[int] = set()

    def read(self, text: bytes) -> None:
        """Read an answer. Raises a `TextFault`."""
        read = lines(text)
        line = 0
        try:
            for line, content in enumerate(read, 1):
                found = fields(content)
                if found:
                    self.take(line, found)
            line = len(read) + 1
            self.end()
        except TextFault:
            raise
        except Fault as fault:
            raise TextFault(line, fault.reason, fault.field) from None

    def take(self, line: int, found: list[bytes]) -> None:
        kind = kind_of(found)
        if kind in (Kind.CUT, Kind.SIDE):
            self.take_cut(line, kind, read_number(found[2]))
        elif found[0].startswith(b"c"):
            return
        elif kind not in (Kind.VALUE, Kind.FLOW):
            raise Fault("unknown line", found[0])
        elif self.flows is not None:
            raise Fault("second solution")
        elif kind is Kind.FLOW:
            self.take_flow(*flow_of(found))
        elif self.has_value:
            raise Fault("second value line")
        elif len(found) != 2:
            raise Fault("wrong number of fields")
        else:
            self.has_value = read_number(found[1]) >= 0

    def take_flow(self, tail: int, head: int, flow: int) -> None:
        if (tail, head) not in self.capacities:
            raise Fault(f"no such arc: {tail} to {head}")
        self.flow_sums[tail, head] += flow
        if self.flow_sums[tail, head] > self.capacities[tail, head]:
            raise Fault("over capacity")
        self.told.append((tail, head, flow))

    def take_cut(self, line: int, kind: Kind, value: int) -> None:
        if kind is Kind.CUT:
            if self.cut is not None:
                raise Fault("second cut")
            self.cut = value, line
        elif self.cut is None:
            raise Fault("a side line before its cut")
        elif not 1 <= value <= self.problem.node_count:
            raise Fault(f"no such node: {value}")
        else:
            self.side.add(value)

    def end(self) -> None:
        if self.flows is None and (self.has_value or self.told):
            self.flows = self.flows_of_arcs()
        if self.cut is None:
            return
        capacity, line = self.cut
        if self.problem.source not in self.side or self.problem.sink in self.side:
            raise TextFault(line, "the side of this cut lacks the source or contains the sink")
        carried = sum(
            arc.capacity for arc in self.arcs if arc.tail in self.side and arc.head not in self.side
        )
        if carried != capacity:
            raise TextFault(line, f"the arcs of this cut carry {carried}, not {capacity}")

    def flows_of_arcs(self) -> list[int]:
        """Return the flow on each arc. If the answer has one flow line for each arc in order, each
        arc gets its own. Otherwise the flow between two nodes is shared out among the arcs between
        them: each, in order, takes as much as its capacity allows."""
        told = self.told
        if len(told) == len(self.arcs) and all(
            one[:2] == arc[:2] and one[2] <= arc[2] for one, arc in zip(told, self.arcs)
        ):
            return [flow for _, _, flow in told]
        flows = []
        for tail, head, capacity, _ in self.arcs:
            flows.append(min(capacity, self.flow_sums[tail, head]))
            self.flow_sums[tail, head] -= flows[-1]
        return flows

    def drawing(self) -> Drawing:
        flows: list[int | None] = [None] * len(self.arcs)
        flows[:] = self.flows or flows
        return Drawing(self.problem, self.arcs, flows, self.side)


def is_of_session(text: bytes) -> bool:
    """Return True if a text has commands, replies to changes, or brief replies to solves."""
    return any(
        kind_of(fields(line)) in (Kind.COMMAND, Kind.CHANGED, Kind.SOLVED) for line in lines(text)
    )


def follow(
    problem: Problem, texts: list[tuple[str, bytes]], commands: str | None
) -> TranscriptReader:
    """Read the output of a session from these texts, one after the other. Raises a `ToolFault`."""
    follower = TranscriptReader(
        problem, None if commands is None else io.BytesIO(read_file(commands))
    )
    path = ""
    try:
        for path, text in texts:
            follower.line = 0
            for line in io.BytesIO(text):
                follower.take(line)
                if not follower.is_known:
                    raise TranscriptFault(ANSWER, follower.line, UNKNOWN)
        follower.end()
    except TranscriptFault as fault:
        raise fault_in(
            commands if fault.text == COMMANDS and commands is not None else path, fault
        ) from None
    return follower


def drawing_of_session(follower: TranscriptReader) -> Drawing:
    """Return a drawing of the last solution and the last cut, on the network as it is at the
    end."""
    timeline, solution, cut = follower.timeline, follower.solution, follower.cut
    flows: list[int | None] = [None] * len(timeline.arcs)
    notes = []
    if solution:
        for at, flow in zip(solution.numbers, solution.flows):
            # If the addition of an arc was undone, the arc no longer exists.
            if at <= len(flows) and not timeline.arcs[at - 1].is_closed:
                flows[at - 1] = flow
        notes += ["the network was changed after these flows"] * (
            solution.serial != timeline.serial
        )
    elif follower.solves_are_brief:
        notes += ["the flows of the last solve were not printed; `print flow` prints them"]
    if cut:
        notes += ["the network was changed after this cut"] * (cut.serial != timeline.serial)
    side = set(cut.side) if cut else set()
    return Drawing(timeline.problem, timeline.arcs, flows, side, timeline.shut_nodes(), notes)


def drawing_of(problem: Problem, paths: list[str], commands: str | None) -> Drawing:
    """Return a drawing of the answers in these files."""
    texts = [(path, read_file(path)) for path in paths]
    if commands is None and not any(is_of_session(text) for _, text in texts):
        answer = ProblemAnswer(problem)
        for path, text in texts:
            try:
                answer.read(text)
            except TextFault as fault:
                raise fault_in(path, fault) from None
        return answer.drawing()
    return drawing_of_session(follow(problem, texts, commands))


def draw(words: argparse.Namespace) -> int:
    """Draw what the arguments name, and return the tool's status. Raises a `ToolFault`."""
    drawing = drawing_of(problem_of(words), words.others, words.commands)
    if ties := drawing.folding.ties(drawing.problem.arcs):
        from .tied_pipes import draw_pipes

        draw_pipes(drawing, ties)
    count = len(drawing.drawn)
    if count > words.most and not drawing.side:
        told = (
            f"{count} arcs are too many to draw. With a cut, as from `dmf solve --cut`, the arcs "
            "nearest the cut are drawn"
        )
        raise ToolFault(told)
    for note in drawing.notes:
        warn(NAME, note)
    if count > words.most:
        warn(
            NAME,
            f"of {count} arcs, only the {words.most} nearest the cut are drawn",
        )
    write("".join(f"{line}\n" for line in picture(drawing, words.most)))
    return Status.DONE
