"""What the commands about a project do: keep the steps in one, its scenarios, notes and report."""

from __future__ import annotations

import os
from collections.abc import Callable

from ...text.lexical import display
from ...text.spelling import cleaned
from ..project.comparison import Comparison, compare
from ..project.report import report
from ..project.scenarios import BASE, Scenarios
from ..steps import DeskFault
from ..workspace import Desk
from .context import Context
from .grammar import COMMANDS, one_name, quoted
from .output import value_line


def _keep(context: Context, words: list[str]) -> None:
    if context.desk.trials:
        raise DeskFault("a trial is open; `keep` alone or `drop` ends it")
    if not context.keep:
        raise DeskFault("a project cannot be made here")
    before = context.desk
    context.desk = context.keep(os.path.expanduser(one_name(words, "keep")), before)
    before.end()
    context.output.tell(
        f"kept from here on: {display(context.desk.network.subject.path)}. "
        "Each step solves after its change",
        value_line(context.desk),
    )


def _scenario(context: Context, words: list[str]) -> None:
    project = kept_project(context.desk)
    if words:
        _change_scenario(project, words)
    context.output.scenarios(project, is_list=not words)


def _compare(context: Context, words: list[str]) -> None:
    context.output.comparison(compared(kept_project(context.desk), words))


def _notes(context: Context, words: list[str]) -> None:
    project = kept_project(context.desk)
    if words:
        project.take_notes(" ".join(words))
    notes = project.project.notes
    context.output.tell(f"notes: {display(notes)}" if notes else "no notes")


def _report(context: Context, words: list[str]) -> None:
    path = context.files.new(one_name(words, "report"), [".html"])
    context.output.tell(context.files.put(path, report(context.desk).encode()))


def kept_project(desk: Desk) -> Scenarios:
    """Return the project that keeps a desk. Raise a `DeskFault` if none does."""
    project = Scenarios.of(desk)
    if project is None:
        raise DeskFault("only a project has scenarios; `keep FILE.dmf.json` keeps the steps in one")
    return project


def _change_scenario(project: Scenarios, words: list[str]) -> None:
    """Do what the words after `scenario` ask for. Raise a `DeskFault`."""
    what, name = words[0], cleaned(" ".join(words[1:]))
    calls: dict[str, Callable[[str], object]] = {
        "go": project.go,
        "copy": project.copy,
        "name": project.rename,
        "delete": project.delete,
        "note": project.note,
    }
    if what == "new" and words[-2:-1] == ["from"] and len(words) > 3:
        project.new(cleaned(" ".join(words[1:-2])), _named(project, words[-1]))
    elif what == "new" and name:
        project.new(name)
    elif what in calls and (name or what == "note"):
        calls[what](_named(project, name) if what in ("go", "delete") else name)
    else:
        raise DeskFault(f"usage: {COMMANDS['scenario'].form}")


def _named(project: Scenarios, name: str) -> str:
    """Return the scenario that a name means, also in other letters if no other one has it."""
    names = [it.name for it in project.project.scenarios]
    near = [it for it in (*names, BASE) if it.casefold() == name.casefold()]
    return name if name in names or len(near) != 1 else near[0]


def compared(project: Scenarios, words: list[str]) -> Comparison:
    """Return the comparison that words ask for: of two scenarios, or of the present one and another
    one."""
    names = {BASE, *(it.name for it in project.project.scenarios)}

    def meant(part: list[str]) -> str:
        return _named(project, cleaned(" ".join(part)))

    pairs = [(meant(words[:at]), meant(words[at:])) for at in range(1, len(words))]
    found = [pair for pair in pairs if names.issuperset(pair)]
    if words and meant(words) in names:
        found.append((project.scenario.name, meant(words)))
    if len(found) > 1:
        raise DeskFault("this can mean several scenarios; put their names in quotes")
    if not found:
        told = ", ".join(map(quoted, sorted(names)))
        raise DeskFault(
            f"usage: {COMMANDS['compare'].form}; the scenarios are {told}"
            if words
            else f"usage: {COMMANDS['compare'].form}"
        )
    return compare(project, *found[0])


PROJECT_HANDLERS: dict[str, Callable[[Context, list[str]], object]] = {
    "keep": _keep,
    "scenario": _scenario,
    "compare": _compare,
    "notes": _notes,
    "report": _report,
}
