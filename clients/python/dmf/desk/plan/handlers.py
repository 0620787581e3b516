"""What each command of dmf-plan does: a table of functions, one a command."""

from __future__ import annotations

import difflib
import sys
from collections.abc import Callable

from ...quantity import Quantity
from ...text.spelling import quoted_name
from ..analysis import trials_of
from ..export import DRAWN, drawn, problem, table, taken
from ..expressions import capacities
from ..steps import DeskFault, Trial
from ..worth import (
    judge_greatest,
    left_without_all,
    losses,
    losses_of_places,
    worst,
    worst_pairs,
    worst_places,
)
from .arguments import (
    WHERE,
    arcs_from,
    arcs_listed,
    arcs_named,
    arcs_of_name,
    arcs_to_try,
    arcs_told,
    arcs_where,
    capped,
    capped_where,
    last_closed,
    new_arc,
    place_named,
    two_arcs_named,
)
from .context import Context
from .grammar import CHANGES, COMMANDS, PAIRS, PLACES, count_of, no_words, one_name
from .output import TextOutput, costs_told
from .project_handlers import PROJECT_HANDLERS

# From this many arcs on, the progress of a sweep is shown.
MANY = 20
# The number of arcs, places or pairs that `worst` lists.
MOST_WORST = 10


def _change(context: Context, make: Callable[[], object], done: str = "") -> None:
    """Make a step, and answer with the value after it."""
    before = context.desk.value
    make()
    context.output.change(context.desk, before, done)


def _solve(context: Context, words: list[str]) -> None:
    no_words(words, "solve")
    _change(context, context.desk.solve)


def _close(context: Context, words: list[str]) -> None:
    desk = context.desk
    if words[:1] == [WHERE]:
        numbers = arcs_where(desk, words[1:])
        _change(
            context,
            lambda: desk.close(*numbers, words=arcs_told(desk, numbers, words)),
            f"{len(numbers)} closed",
        )
        return
    number = desk.network.the_arc(one_name(words, "close"))
    _change(context, lambda: desk.close(number))


def _open(context: Context, words: list[str]) -> None:
    desk = context.desk
    if not words:
        _change(context, last_closed(desk))
        return
    if words[:1] == [WHERE]:
        numbers = arcs_where(desk, words[1:], are_closed=True)
        _change(
            context,
            lambda: desk.open(*numbers, words=arcs_told(desk, numbers, words)),
            f"{len(numbers)} opened",
        )
        return
    name, names = " ".join(words), desk.network.names
    if names.is_place(name) and desk.network.shut_nodes & set(names.place(name)):
        _change(context, lambda: desk.open_place(desk.network.names.place(name)))
        return
    number = desk.network.the_arc(name, is_closed=True)
    _change(context, lambda: desk.open(number))


def _cap(context: Context, words: list[str]) -> None:
    desk = context.desk
    if words[:1] == [WHERE]:
        wanted, told = capped_where(desk, words)
        count = len(desk.network.pipes.numbers(wanted))
        _change(context, lambda: desk.cap_each(wanted, told), f"{count} changed")
        return
    found = capped(desk, words)
    wanted = capacities(desk, *found)
    told = found.back and next(desk.network.told_capacities(wanted))
    _change(context, lambda: desk.cap_each(wanted), told)


def _add(context: Context, words: list[str]) -> None:
    tail, head, capacity, name = new_arc(context.desk, words, context.confirm)
    _change(context, lambda: context.desk.add(tail, head, capacity, name))


def _shut(context: Context, words: list[str]) -> None:
    place = context.desk.network.names.place(one_name(words, "shut"))
    _change(context, lambda: context.desk.shut(place))


def _undo(context: Context, words: list[str]) -> None:
    _change(context, lambda: context.desk.undo(count_of(words, "undo")))


def _redo(context: Context, words: list[str]) -> None:
    _change(context, lambda: context.desk.redo(count_of(words, "redo")))


def _try(context: Context, words: list[str]) -> None:
    no_words(words, "try")
    context.desk.begin_trial()
    context.output.tell("a trial begins: `drop` takes back what comes now, `keep` keeps it")


def _keep(context: Context, words: list[str]) -> None:
    if words:
        PROJECT_HANDLERS["keep"](context, words)
    else:
        _change(context, context.desk.keep)


def _drop(context: Context, words: list[str]) -> None:
    no_words(words, "drop")
    _change(context, context.desk.drop)


def _steps(context: Context, words: list[str]) -> None:
    no_words(words, "steps")
    context.output.steps(context.desk)


def _cut(context: Context, words: list[str]) -> None:
    no_words(words, "cut")
    if not context.desk.is_greatest:
        raise DeskFault(context.desk.network.words.limit_not_known)
    context.output.limit(context.desk)


def _flow(context: Context, words: list[str]) -> None:
    context.output.flows(context.desk, arcs_named(context.desk, words), with_limit=False)


def _pipes(context: Context, words: list[str]) -> None:
    context.output.flows(context.desk, arcs_listed(context.desk, words), with_limit=True)


def _from(context: Context, words: list[str]) -> None:
    context.output.flows(context.desk, arcs_from(context.desk, words), with_limit=True)


def _places(context: Context, words: list[str]) -> None:
    no_words(words, "places")
    context.output.places(context.desk)


def _worst(context: Context, words: list[str]) -> None:
    desk = context.desk
    what, *rest = words if words[:1] in ([PLACES], [PAIRS]) else ("arcs", *words)
    most = count_of(rest, "worst", what) if rest else MOST_WORST
    if what == PLACES:
        context.output.worst_places(desk, *worst_places(desk, most))
    elif what == PAIRS:
        if not most:
            raise DeskFault("give a number of pairs of at least 1")
        context.output.worst_pairs(desk, worst_pairs(desk, most))
    else:
        context.output.worst(desk, *worst(desk, most))


def _worth(context: Context, words: list[str]) -> None:
    desk = context.desk
    pair = two_arcs_named(desk, words)
    if pair:
        found = losses(desk, pair)
        context.output.worth(desk, found, left_without_all(desk, pair), is_one_name=False)
        return
    place = place_named(desk, words)
    if place:
        context.output.worth_of_place(desk, *losses_of_places(desk, [place.entry]))
        return
    numbers = arcs_of_name(desk, one_name(words, "worth"))
    found = losses(desk, numbers)
    together = left_without_all(desk, numbers) if len(numbers) > 1 else found[0].left
    context.output.worth(desk, found, together)


def _tried(context: Context, numbers: list[int]) -> list[Trial]:
    """Return what each of these open arcs means for the value, the largest loss first. A person
    sees how far it is."""
    trials, is_shown = list[Trial](), context.is_typed and len(numbers) > MANY
    for trial in trials_of(context.desk, numbers):
        trials.append(trial)
        if is_shown:
            sys.stderr.write(f"\r{len(trials)} of {len(numbers)} ")
    if is_shown:
        sys.stderr.write("\r\033[K")
    return sorted(trials, key=lambda trial: trial.closed)


def _what_if(context: Context, words: list[str]) -> None:
    desk = context.desk
    if words[:1] == ["each"]:
        context.output.trials(desk, _tried(context, arcs_to_try(desk, words[1:])))
        return
    if not words or words[0] not in CHANGES:
        raise DeskFault(
            f"usage: {COMMANDS['what-if'].form}; a command there is one of {', '.join(CHANGES)}"
        )
    before = desk.value
    context.output.what_if(desk, before, _value_after(context, words))


def _value_after(context: Context, words: list[str]) -> Quantity:
    """Return the greatest value after a change, which is taken back."""
    judge_greatest(context.desk)
    with context.desk.aside() as desk:
        tried = Context(desk, TextOutput(_nothing), confirm=context.confirm)
        HANDLERS[words[0]](tried, words[1:])
        desk.solve()
        return desk.value


def _nothing(_: str) -> None:
    pass


def _cost(context: Context, words: list[str]) -> None:
    context.output.tell(*costs_told(context.desk, words))


def _draw(context: Context, words: list[str]) -> None:
    path = context.files.new(one_name(words, "draw"), [*DRAWN, ".dot"])
    picture = taken(context.desk, drawn(context.desk, path))
    context.output.tell(context.files.put(path, picture))


def _save(context: Context, words: list[str]) -> None:
    path = context.files.new(one_name(words, "save"), [".csv", ".max"])
    text = table(context.desk) if path.endswith(".csv") else problem(context.desk)
    context.output.tell(context.files.put(path, text.encode()))


def _help(context: Context, words: list[str]) -> None:
    if words:
        command = COMMANDS[command_named(words[0])]
        context.output.tell(command.form, f"  {command.says}")
        return
    width = max(len(command.short or command.form) for command in COMMANDS.values())
    context.output.tell(
        *(
            f"  {command.short or command.form:<{width}}  "
            f"{command.says.split('. ')[0].rstrip('.')}."
            for command in COMMANDS.values()
        )
    )


def _quit(_: Context, words: list[str]) -> bool:
    no_words(words, "quit")
    return True


def command_named(word: str) -> str:
    """Return the command that a word names. Raise a `DeskFault` if none has the name."""
    if word in ("exit", "q"):
        return "quit"
    if word in HANDLERS:
        return word
    near = difflib.get_close_matches(word.lower(), COMMANDS, n=2)
    hint = (
        f"; is it {' or '.join(map(quoted_name, near))}?" if near else "; `help` lists the commands"
    )
    raise DeskFault(f"no command is called {quoted_name(word)}{hint}")


# What each command does. One that returns True ends the session.
HANDLERS: dict[str, Callable[[Context, list[str]], object]] = {
    **PROJECT_HANDLERS,
    "solve": _solve,
    "cut": _cut,
    "flow": _flow,
    "pipes": _pipes,
    "places": _places,
    "from": _from,
    "worst": _worst,
    "worth": _worth,
    "close": _close,
    "open": _open,
    "cap": _cap,
    "add": _add,
    "shut": _shut,
    "undo": _undo,
    "redo": _redo,
    "steps": _steps,
    "try": _try,
    "keep": _keep,
    "drop": _drop,
    "what-if": _what_if,
    "cost": _cost,
    "draw": _draw,
    "save": _save,
    "help": _help,
    "quit": _quit,
}
