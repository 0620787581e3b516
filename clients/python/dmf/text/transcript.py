"""Follow a session through its commands and replies: the network after each reply, and the contents
of each reply.

The commands are given beside the replies, or stand among them, as a terminal shows a session. An
answer of `dmf solve` is a session without commands. If commands and replies do not match, a
`TranscriptFault` says where; nothing is guessed.
"""

from __future__ import annotations

from collections import deque
from collections.abc import Callable, Iterator
from typing import Union

from .lexical import Fault, TextFault, fields, read_number
from .problem_text import Problem
from .session_commands import (
    ADD,
    PRINT_CUT,
    PRINT_FLOW,
    PRINT_PROBLEM,
    SOLVE,
    UNDO,
    Command,
    TrackedNetwork,
    ended_line,
)
from .session_replies import (
    Asked,
    ChangedReply,
    CutReading,
    CutReply,
    Event,
    FlowReply,
    Kind,
    Other,
    Pending,
    PrintedReply,
    ProblemReading,
    RefusedReply,
    SolutionReading,
    SolutionReply,
    TranscriptFault,
    flow_of,
    kind_of,
)

ANSWER, COMMANDS = "answer", "commands"
# Reasons for a refusal that no known network explains: what the history has dropped, and what the
# texts do not show.
UNFORESEEN = {UNDO: {"nothing to undo"}, PRINT_CUT: {"flow is not greatest"}}
Reading = Union[SolutionReading, CutReading, ProblemReading]


class TranscriptReader:
    """Reads the lines of an answer one after the other.

    `timeline` is the present network; if `is_known` is false, unknown commands have changed it.
    `is_numbered` is false if the network is known only from a printed problem, in which arcs may
    have other numbers. `solution` and `cut` are the latest ones. `solution` is None if its flows
    are not known, as after the brief reply to a solve, or if the network is not known.
    `solves_are_brief` is true if replies to solves give only the value (`--brief`), and None if
    that is not known.
    """

    def __init__(self, problem: Problem, commands: Iterator[bytes] | None = None) -> None:
        self.timeline = TrackedNetwork(problem)
        self.is_known = self.is_numbered = True
        self.solves_are_brief: bool | None = None
        self.solution: SolutionReply | None = None
        self.cut: CutReply | None = None
        self.line = 0
        self._given = commands
        self._command_line = 0
        self._waiting: deque[Pending] = deque()
        self._reading: Reading | None = None
        # `_solves_have_cuts`: whether a cut follows each solve (`--cut`), None while that is not
        # known. `_awaits_cut`: the last reply was to a `solve`, so that its cut may follow.
        # `_is_in_doubt`: a cut was read as that of a solve, and may be the reply to `print cut`
        # instead.
        self._solves_have_cuts: bool | None = None
        self._awaits_cut = self._is_in_doubt = False

    def take(self, line: bytes) -> list[Event]:
        """Return the events of a line, which may still have its line feed. Raises a
        `TranscriptFault`."""
        self.line += 1
        reading = self._reading
        try:
            if (
                isinstance(reading, SolutionReading)
                and line.startswith(b"f ")
                and not reading.is_whole_with(1)
            ):
                # Handled first, since most lines of a large answer are flows.
                reading.take(fields(ended_line(line)))
                return []
            return list(self._take(ended_line(line), line))
        except Fault as fault:
            raise self._located(fault) from None

    def end(self) -> list[Event]:
        """Return the events that the end of the answer completes. Raises a `TranscriptFault` if
        something is missing."""
        self.line += 1
        try:
            return list(self._end())
        except Fault as fault:
            raise self._located(fault) from None

    def _located(self, fault: Fault) -> TranscriptFault:
        if isinstance(fault, TranscriptFault):
            return fault
        return TranscriptFault(
            ANSWER,
            fault.line if isinstance(fault, TextFault) else self.line,
            fault.reason,
            fault.field,
        )

    def _take(self, content: bytes, line: bytes) -> Iterator[Event]:
        found = fields(content)
        kind = kind_of(found)
        if kind is Kind.OTHER or kind is Kind.COMMAND and self._given is not None:
            yield Other(content)
        elif kind is Kind.FLOW and not self.is_known:
            yield FlowReply(*flow_of(found))
        elif self._reading and kind in self._reading.GOES_ON:
            yield from self._go_on(self._reading, content, found)
        else:
            yield from self._break_off()
            yield from self._begin(kind, content, found, line)

    def _begin(
        self, kind: Kind, content: bytes, found: list[bytes], line: bytes
    ) -> Iterator[Event]:
        """Begin the reply or the command that a line of this kind starts."""
        if kind is Kind.COMMAND:
            pending = Pending.of(ANSWER, self.line, line)
            self._waiting.extend([pending] if pending else [])
            yield Asked(content)
        elif kind is Kind.REFUSED:
            self._refuse(read_number(found[2]), b" ".join(found[3:]).decode(errors="replace"))
            yield RefusedReply(content, b" ".join(found[3:]).decode(errors="replace"))
        elif kind is Kind.CHANGED:
            yield self._changed(content, found)
        elif kind is Kind.VALUE:
            yield from self._begin_solution(found)
        elif kind is Kind.SOLVED:
            yield self._solved(read_number(found[3]))
        elif kind is Kind.CUT:
            yield from self._begin_cut(read_number(found[2]))
        elif kind is Kind.PROBLEM:
            self._asked(PRINT_PROBLEM)
            self._reading = ProblemReading(content, found, self.line)
        elif kind is Kind.FLOW:
            raise Fault("a flow before its value line, or more flows than the network has arcs")
        elif kind is Kind.SIDE:
            raise Fault("a side line before its cut, or more of them than the cut has")
        else:
            raise Fault(f"unknown line: {found[0].decode()}")

    # Commands and their replies.

    def _head(self) -> Pending | None:
        """Return the oldest command without a reply."""
        while not self._waiting and self._given is not None:
            line = next(self._given, b"")
            if not line:
                return None
            self._command_line += 1
            pending = Pending.of(COMMANDS, self._command_line, line)
            self._waiting.extend([pending] if pending else [])
        return self._waiting[0] if self._waiting else None

    def _settle(self, is_answered: Callable[[Pending], bool]) -> Pending | None:
        """Return the oldest command without a reply, given that a reply other than a cut has
        arrived. By then it is known whether solves have cuts: a cut in doubt was the reply to
        `print cut` if that command is still waiting and this reply does not answer it."""
        if self._awaits_cut and self._solves_have_cuts:
            raise Fault("the cut of this solve is missing")
        if self._awaits_cut:
            self._solves_have_cuts = False
        head = (
            self._head() if self._is_in_doubt or self._given is not None or self._waiting else None
        )
        if self._is_in_doubt:
            waits = (
                head is not None and head.command == Command(PRINT_CUT) and not is_answered(head)
            )
            self._solves_have_cuts = not waits
            if waits:
                self._waiting.popleft()
                head = self._head()
        self._awaits_cut = self._is_in_doubt = False
        return head

    def _asked(self, *words: str) -> Command | None:
        """Return the command that a reply answers, which must begin with one of these words, or
        None if no commands are known. Raises a `Fault` if the oldest command without a reply is
        another one, or should be refused."""
        head = self._settle(lambda head: False) if words != (PRINT_CUT,) else self._head()
        if head is None:
            if self._given is not None:
                raise Fault("no command is left that this could answer")
            return None
        if head.command is None or head.command.word not in words:
            raise Fault(f"this does not answer {head}")
        refusal = self.timeline.refusal(head.command)
        if refusal and self._is_sure():
            raise Fault(f"this does not answer {head}: {refusal}")
        self._waiting.popleft()
        return head.command

    def _refuse(self, line: int, reason: str) -> None:
        """Take a refusal of the command line with this number as the reply to the oldest command
        without one."""
        head = self._settle(lambda head: self._may_refuse(head, line, reason))
        if head is None:
            if self._given is not None:
                raise Fault("no command is left that this could answer")
            return
        if self._may_refuse(head, line, reason):
            self._waiting.popleft()
        elif self._given is not None or reason not in ("unknown command", "line too long"):
            raise Fault(f"this does not answer {head}")

    def _may_refuse(self, head: Pending, line: int, reason: str) -> bool:
        """Return True if this may be the refusal of a command. A transcript may lack lines, so line
        numbers are not reliable there."""
        if self._given is not None and line != head.line:
            return False
        if head.command is None:
            return reason == head.refusal
        if not self._is_sure():
            return True
        foreseen = self.timeline.refusal(head.command)
        return (
            reason == foreseen
            if foreseen
            else reason in {"no memory", *UNFORESEEN.get(head.command.word, ())}
        )

    def _is_sure(self) -> bool:
        """Return True if the network is known, with the arc numbers that the commands use."""
        return self.is_known and self.is_numbered

    def _changed(self, content: bytes, found: list[bytes]) -> ChangedReply:
        command = self._asked(found[1].decode())
        value = read_number(found[-1])
        if command is None or not self._is_sure() or not self.timeline.knows(command):
            self.is_known = False
        else:
            self.timeline.carry_out(command, value)
            if command.word == ADD and read_number(found[2]) != len(self.timeline.arcs):
                raise Fault(f"the added arc has the number {len(self.timeline.arcs)}")
        return ChangedReply(content, command, value)

    # Solutions, cuts and printed problems.

    def _answers_solve(self, is_brief: bool) -> None:
        """Record the form of the reply to a solve. Raises a `Fault` if an earlier one had the other
        form."""
        if self.solves_are_brief not in (None, is_brief):
            raise Fault("brief and whole replies to solve in one answer")
        self.solves_are_brief = is_brief

    def _solved(self, value: int) -> SolutionReply:
        """Take the brief reply to a solve. Its flows are not known until they are printed."""
        command = self._asked(SOLVE)
        self._answers_solve(is_brief=True)
        if command is not None and self.is_known:
            self.timeline.carry_out(command, value)
        elif self.is_known:
            self.timeline.forget_history(value)
        self._awaits_cut = True
        self.solution = None
        return SolutionReply(value, is_told=False, serial=self.timeline.serial)

    def _begin_solution(self, found: list[bytes]) -> Iterator[Event]:
        if len(found) != 2:
            raise Fault("wrong number of fields")
        value = read_number(found[1])
        command = self._asked(SOLVE, PRINT_FLOW)
        if command == Command(SOLVE):
            self._answers_solve(is_brief=False)
        if not self.is_known:
            self._awaits_cut = command == Command(SOLVE)
            self.solution = None
            yield SolutionReply(value, is_told=False)
            return
        self._reading = SolutionReading(value, self.timeline.arcs, command)
        if self._reading.is_whole():
            yield self._solution(self._reading)

    def _begin_cut(self, capacity: int) -> Iterator[Event]:
        if self._awaits_cut and self._solves_have_cuts is not False:
            self._awaits_cut, self._is_in_doubt = False, self._solves_have_cuts is None
        else:
            self._awaits_cut = False
            self._asked(PRINT_CUT)
        arcs = self.timeline.arcs if self.is_known else None
        self._reading = CutReading(capacity, self.line, self.timeline.problem, arcs)
        yield from ()

    def _go_on(self, reading: Reading, content: bytes, found: list[bytes]) -> Iterator[Event]:
        if isinstance(reading, ProblemReading):
            reading.lines.append(content)
        else:
            reading.take(found)
        if not reading.is_whole():
            return
        if isinstance(reading, SolutionReading):
            yield self._solution(reading)
        elif isinstance(reading, CutReading):
            yield self._cut(reading)
        else:
            yield self._printed(reading)

    def _break_off(self) -> Iterator[Event]:
        """Finish what is being read, because the next line does not belong to it. The flows of a
        solution may have been left out."""
        reading = self._reading
        if isinstance(reading, SolutionReading):
            if reading.flows:
                raise Fault(
                    f"the solution has {len(reading.flows)} flows, and the network "
                    f"{len(reading.arcs)} arcs"
                )
            yield self._solution(reading)
        elif isinstance(reading, CutReading):
            yield self._cut(reading)
        elif reading:
            reading.read()

    def _solution(self, reading: SolutionReading) -> SolutionReply:
        timeline = self.timeline
        is_told = reading.is_whole()
        if is_told:
            reading.judge(timeline.problem.source, timeline.problem.sink)
        # If replies to solves are brief, a solution can only answer `print flow`.
        if reading.command is None and not self.solves_are_brief:
            timeline.forget_history(reading.value)
        elif reading.command == Command(SOLVE):
            timeline.carry_out(reading.command, reading.value)
            self._awaits_cut = True
        elif reading.value != timeline.value:
            raise Fault(f"value differs: it is {timeline.value} here")
        self._reading = None
        told = (reading.numbers, reading.arcs, reading.flows) if is_told else ((), (), ())
        solution = SolutionReply(reading.value, is_told, *told, timeline.serial)
        self.solution = solution if is_told else None
        return solution

    def _cut(self, reading: CutReading) -> CutReply:
        try:
            reading.judge()
        except Fault as fault:
            raise TranscriptFault(ANSWER, reading.line, fault.reason) from None
        self._reading = None
        self.cut = CutReply(
            reading.capacity,
            list(reading.side),
            reading.crossing(),
            reading.line,
            self.timeline.serial,
        )
        return self.cut

    def _printed(self, reading: ProblemReading) -> PrintedReply:
        printed, timeline = reading.read(), self.timeline
        known = timeline.problem
        if (printed.node_count, printed.source, printed.sink) != (
            known.node_count,
            known.source,
            known.sink,
        ):
            raise TranscriptFault(ANSWER, reading.first_line, "this is a problem with other nodes")
        numbers = None
        if self.is_known:
            numbers = [at for at, arc in enumerate(timeline.arcs, 1) if not arc.is_closed]
            if printed.arcs != [timeline.arcs[at - 1][:3] for at in numbers]:
                raise TranscriptFault(
                    ANSWER, reading.first_line, "this is a problem with other arcs"
                )
        else:
            self.timeline = TrackedNetwork(printed, timeline.value, begins_known=False)
            self.is_known, self.is_numbered = True, False
        self._reading = None
        return PrintedReply(reading.lines, printed, numbers if self.is_numbered else None)

    def _end(self) -> Iterator[Event]:
        yield from self._break_off()
        head = self._settle(lambda head: False)
        if head is not None:
            raise TranscriptFault(head.text, head.line, f"no reply to `{head.content}`")
