"""The answers of dmf-plan as text."""

from __future__ import annotations

from collections import defaultdict
from collections.abc import Iterable, Iterator, Sequence

from ...quantity import EXACT, Quantity, magnitude, moved, plain_text
from ...text.lexical import display
from ...text.spelling import cleaned, quoted_name
from ...text.table_comments import DEMAND, SUPPLY
from ..analysis import cheapest, prices, purchase_lines
from ..demands import demand_sentence, limited_amounts
from ..expressions import amount
from ..project.comparison import Comparison
from ..project.scenarios import Scenarios
from ..steps import Trial
from ..workspace import Desk
from ..worth import Loss, PairLoss
from .context import Output

TO, SECONDS = "to", ["of", "seconds"]
MOST_SIDE = 30


class TextOutput(Output):
    """Answers as lines of text."""

    def tell(self, *lines: str) -> None:
        self.write("".join(f"{line}\n" for line in lines))

    def change(self, desk: Desk, before: Quantity, done: str = "") -> None:
        self.tell(f"{done}: " * bool(done) + value_line(desk, before))

    def limit(self, desk: Desk) -> None:
        self.tell(*_limit_lines(desk))

    def flows(self, desk: Desk, numbers: list[int], *, with_limit: bool) -> None:
        self.tell(*arc_lines(desk, numbers, with_limit=with_limit), *_no_flow(desk))

    def places(self, desk: Desk) -> None:
        self.tell(*place_lines(desk))

    def steps(self, desk: Desk) -> None:
        self.tell(*_step_lines(desk))

    def trials(self, desk: Desk, trials: list[Trial]) -> None:
        self.tell(*_trial_lines(desk, trials))

    def worst(self, desk: Desk, losses: list[Loss], more: int) -> None:
        names = desk.network.names
        named = [(it, f"#{it.number} {names.arc(it.number)}") for it in losses]
        self.tell(*_worst_lines(desk, named, more, f"no {desk.network.words.noun} alone costs"))

    def worst_places(self, desk: Desk, losses: list[Loss], more: int) -> None:
        named = [(it, desk.network.names.node(it.number)) for it in losses]
        self.tell(*_worst_lines(desk, named, more, "no place alone costs"))

    def worst_pairs(self, desk: Desk, losses: list[PairLoss]) -> None:
        short = desk.network.names.short
        named = [(it, " and ".join(f"#{one} {short(one)}" for one in it.numbers)) for it in losses]
        none_costs = f"no two {desk.network.words.noun}s together cost"
        self.tell(*_worst_lines(desk, named, 0, none_costs))

    def worth_of_place(self, desk: Desk, loss: Loss) -> None:
        label = desk.network.names.node(loss.number)
        self.tell(f"{desk.network.words.shutting} {label}: {_left_of(desk, loss.left)}")

    def worth(
        self, desk: Desk, losses: list[Loss], together: Quantity, *, is_one_name: bool = True
    ) -> None:
        if is_one_name and len(losses) > 1:
            self.tell(f"{len(losses)} {desk.network.words.noun}s have this name")
        self.tell(*_worth_lines(desk, losses, together))

    def what_if(self, desk: Desk, before: Quantity, value: Quantity) -> None:
        self.tell(f"it would be {desk.network.told(value)}: {moved(before, value)}")

    def scenarios(self, project: Scenarios, *, is_list: bool) -> None:
        self.tell(*(_scenario_lines(project) if is_list else [_present_scenario(project)]))

    def comparison(self, found: Comparison) -> None:
        self.tell(*found.lines())


def value_line(desk: Desk, before: Quantity | None = None) -> str:
    """Return the present value in words, and its difference to the one before."""
    value = desk.value
    by = "" if before is None or value == before else f", {moved(before, value)}"
    return f"value {desk.network.told(value)}{by}" + (
        ", the greatest"
        if desk.is_greatest
        else f"; more {desk.network.words.page.brief_task}: solve"
    )


def _limit_lines(desk: Desk) -> Iterator[str]:
    network = desk.network
    side = network.names.side(desk.side())
    more = f" and {len(side) - MOST_SIDE} more" if len(side) > MOST_SIDE else ""
    yield f"limit {network.told(desk.value)}"
    if side:
        yield f"  {network.words.side}: {', '.join(side[:MOST_SIDE])}{more}"
    cut = list(desk.cut_arcs())
    for number, flow in zip(cut, desk.flows_on(cut)):
        yield f"  #{number} {network.names.arc(number)}: {network.told_room(number, flow)}"


def _step_lines(desk: Desk) -> Iterator[str]:
    # Where the session stands does not matter, nor whether it has ended.
    steps, at, network = desk.steps, desk.at, desk.state.network
    mark = "*" if at == 0 else " "
    yield f"  {0:>3} {mark} {display(network.subject.path)}: value {network.told(0)}"
    for number, step in enumerate(steps, 1):
        mark = "*" if number == at else " "
        undone = " (undone)" if number > at else ""
        yield (
            f"  {number:>3} {mark} {display(step.text)}: value "
            f"{network.told(step.value)}{undone}"
        )


def costs_told(desk: Desk, words: list[str]) -> Iterable[str]:
    """Return what the words of `cost` ask for: a column, whether it is about second arcs, and the
    value to reach."""
    to = None
    if TO in words:
        at = len(words) - 1 - words[::-1].index(TO)
        words, to = words[:at], amount(" ".join(words[at + 1 :]), desk.network.measure)
    is_second = words[-2:] == SECONDS
    given = prices(desk, cleaned(" ".join(words[: -2 if is_second else None])), is_second=is_second)
    return purchase_lines(desk, given, cheapest(desk, given, to))


def arc_lines(desk: Desk, numbers: list[int], *, with_limit: bool) -> Iterator[str]:
    """Yield a line for each of these pipes: its flow and, with `with_limit` and if it is known,
    whether the pipe is part of the limit."""
    network = desk.network
    limit = desk.cut_arcs() if with_limit and desk.is_greatest else {}
    for number, flow in zip(numbers, desk.flows_on(numbers)):
        pipe = network.pipe(number)
        full = ", full" * pipe.is_full(flow)
        state = "closed" if pipe.is_closed else network.told_amounts(number, flow) + full
        yield f"  #{number} {network.names.arc(number)}: {state}" + ", limit" * (number in limit)


def place_lines(desk: Desk) -> list[str]:
    """Return what comes into each place, and what goes out; of a source or a sink with a limit, out
    of how much; and whether all demands are met."""
    network = desk.network
    entering: dict[int, Quantity] = defaultdict(int)
    leaving: dict[int, Quantity] = defaultdict(int)
    place = network.folding.place
    pictured = network.pictured()
    for number, flow in zip(pictured, desk.flows_on(pictured)):
        line = network.lines[number - 1]
        tail, head = map(place, line[:2] if flow >= 0 else line[1::-1])
        leaving[tail] = EXACT.add(leaving[tail], magnitude(flow))
        entering[head] = EXACT.add(entering[head], magnitude(flow))
    side = desk.side() if desk.is_greatest else set()
    words = network.words.page
    supplies, demands = (limited_amounts(desk, kind) for kind in (SUPPLY, DEMAND))

    def told(node: int) -> str:
        short = demands[node].short if node in demands else 0
        said = (
            [f"a {words.source}"] * (node in network.sources)
            + [f"a {words.sink}"] * (node in network.sinks)
            + [f"{plain_text(short)} short"] * (short > 0)
            + [words.is_shut] * (node in network.shut_nodes)
            + ["before the limit"] * (node in side)
        )
        amounts = (
            f"{demands[node].text if node in demands else plain_text(entering[node])} in",
            f"{supplies[node].text if node in supplies else plain_text(leaving[node])} out",
        )
        return f"  {network.names.node(node)}: {', '.join([*amounts, *said])}"

    lines = [*map(told, network.folding.places(range(1, network.names.node_count + 1)))]
    sentences = [demand_sentence(desk, demands)] if demands else []
    return [*lines, *sentences, *_no_flow(desk)]


def _no_flow(desk: Desk) -> list[str]:
    """Return the line that tells why nothing flows although something could."""
    is_unsolved = not desk.value and not desk.is_greatest
    return [f"{desk.network.words.none_yet}: `solve` finds the greatest"] if is_unsolved else []


def _present_scenario(project: Scenarios) -> str:
    desk = project.desk
    steps = desk.at - 1
    count = f"{steps} step{'s' * (steps != 1)}"
    value = desk.network.told(desk.value)
    return f"scenario {quoted_name(project.scenario.name)}, {count}: value {value}"


def _scenario_lines(project: Scenarios) -> list[str]:
    """Return the scenarios, each with the value that it was kept with."""
    lines = []
    for it in project.project.scenarios:
        mark = "*" if it is project.scenario else " "
        begun = f", from {quoted_name(it.begun_from)}" if it.begun_from else ""
        left = f"; {len(it.left_out)} left out when the table had changed" if it.left_out else ""
        note = f"; {display(it.note)}" if it.note else ""
        lines.append(
            f"  {mark} {display(it.name)}{begun}: {it.at} of {len(it.steps)} steps, value "
            f"{project.kept_value(it)}{left}{note}"
        )
    return lines


def _worst_lines(
    desk: Desk, named: Sequence[tuple[Loss | PairLoss, str]], more: int, none_costs: str
) -> Iterator[str]:
    """Yield a table of what is worst to lose: the value without each, its loss, and its name."""
    rows = [
        [desk.network.measure.title("without"), "loss", ""],
        *([plain_text(it.left), plain_text(it.loss), name] for it, name in named),
    ]
    if named:
        first, second = (max(len(row[at]) for row in rows) for at in (0, 1))
        for left, loss, name in rows:
            yield f"  {left:>{first}}  {loss:>{second}}  {name}".rstrip()
    if more:
        yield f"  and {more} more"
    elif not named:
        yield f"  {none_costs} anything to lose"


def _worth_lines(desk: Desk, losses: list[Loss], together: Quantity) -> Iterator[str]:
    """Yield what closing some arcs leaves: of several, closing each, and all of them."""
    names = desk.network.names
    if len(losses) == 1:
        yield f"closing {names.short(losses[0].number)}: {_left_of(desk, together)}"
        return
    for it in losses:
        yield f"  closing #{it.number} {names.arc(it.number)}: {_left_of(desk, it.left)}"
    both = "both" if len(losses) == 2 else f"all {len(losses)}"
    yield f"  closing {both}: {_left_of(desk, together)}"


def _left_of(desk: Desk, left: Quantity) -> str:
    """Return what is left of the value: `165 to 120 litres per second, 45 less`."""
    value = desk.value
    return f"{plain_text(value)} to {desk.network.told(left)}, {moved(value, left)}"


def _trial_lines(desk: Desk, trials: list[Trial]) -> list[str]:
    """Return trials in words, a line for each."""
    network = desk.network
    base, lines = desk.value, []
    for trial in trials:
        doubled = (
            "past 64 bits"
            if trial.doubled is None
            else f"{plain_text(trial.doubled)} ({moved(base, trial.doubled)})"
        )
        second = "twice as much" if network.role(trial.arc) else "a second one"
        closed = f"closed {plain_text(trial.closed)} ({moved(base, trial.closed)})"
        lines.append(f"  #{trial.arc} {network.names.arc(trial.arc)}: {closed}, {second} {doubled}")
    return lines
