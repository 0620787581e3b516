"""Tests tools/dmf-plan by scripts: what it tells, and what it refuses."""

from __future__ import annotations

import re
import subprocess
from pathlib import Path

import pytest
from desk_shared import (
    PIPES,
    ROOT,
    SCRIPT,
    STORY,
    Pipe,
    greatest,
    run,
    swept,
    values,
    water,
    without,
)
from limits import SECONDS

# Lines that are refused before a solve, and what is said of each.
LINES = {
    "close Mil Lane": "no arc is called 'Mil Lane'; is it 'Mill Lane'",
    "shut mill": "no place is called 'mill'; is it 'Mill'",
    "sovle": "no command is called 'sovle'; is it 'solve'",
    'close "Mill Lane': 'a quote (") is not closed',
    "cap Mill Lane ten": "'ten' is not a number",
    "cap Mill Lane 1,200": "'1,200' may be 1.2 or 1200",
    "cap Mill Lane -45.5": "'-45.5' changes 45 to -0.5, which is below 0",
    "cap Mill Lane 10 %": "'10 %' is a share: write it with + or - before it, or the whole amount",
    "add Mill Station +5": "'+5' changes an amount, and there is none yet",
    "add Mill Station 1 200": "this can mean several things",
    "undo 1.5": "'1.5' is not a number of steps",
    "worst ten": "'ten' is not a number of arcs",
    "worst places ten": "'ten' is not a number of places",
    "cap": "usage: cap ARC NUMBER",
    "undo": "nothing to undo",
    "redo": "nothing to redo",
    "drop": "no trial is open; `try` begins one",
    "cut": "the flow is not greatest",
    "add Mill Statoin 5": "no place is called 'Statoin'; is it 'Station'",
    "add Mill Newtown 5": "no place is called 'Newtown'; `--new` before its name makes a new place",
    "add Mill --new Market 5": "a place called 'Market' already exists",
    "add Mill --new mill 5": "a place called 'Mill' already exists",
    "add Mil --new Newtown 5": "no place is called 'Mil'; is it 'Mill'",
    "add --new Hill --new hill 5": "two new places cannot both be called 'Hill'",
    "add --new #3 Mill 5": "'#3' cannot be the name of a place",
    "add --new Hill": "usage: add [--new] PLACE [--new] PLACE NUMBER [NAME]",
    "cap Mill-Market 99999999999999999999": "is past 18446744073709551615",
    "cap Mill-Market 18446744073709551615": "the sum of the capacities would be past "
    "18446744073709551615",
    "save x.txt": "the name of the file ends with one of .csv, .max",
    f"save {PIPES}": "already exists",
    "what-if solve": "usage: what-if",
    "open": "nothing is closed",
}


def test_new_places(tmp_path: Path) -> None:
    """A script makes a place by a word, and what is saved has it."""
    script = f"""add --new Tank 2 --new New Town 10 Main
add Mill --new "Hill Farm" 50
add Hill Farm Harbour 30
solve
save {tmp_path}/plan.csv
undo 3
places
"""
    ran = run("dmf-plan", PIPES, typed=script)
    pipes = [
        *water(),
        Pipe("Tank 2", "New Town", 10, "Main"),
        Pipe("Mill", "Hill Farm", 50, ""),
        Pipe("Hill Farm", "Harbour", 30, ""),
    ]
    assert (ran.returncode, f"value {greatest(pipes)} litres" in ran.stdout) == (0, True), ran
    assert "  Tank 2: 0 in, 0 out\n" in ran.stdout and "Hill Farm:" not in ran.stdout, ran
    again = run("dmf-plan", f"{tmp_path}/plan.csv", typed="solve\nplaces\n")
    assert (
        f"value {greatest(pipes)} litres" in again.stdout and "Hill Farm: " in again.stdout
    ), again


def test_scripts() -> None:
    ran = run("dmf-plan", PIPES, typed=SCRIPT)
    solved = [
        found
        for line, found in zip(SCRIPT.splitlines(), re.findall("value ([0-9]+)", ran.stdout))
        if line == "solve"
    ]
    assert (list(map(int, solved)), ran.returncode) == (STORY, 0), f"the story: {solved}, {ran}"
    ran = run("dmf-plan", PIPES, typed="".join(f"{line}\n" for line in LINES))
    told = [line for line in ran.stderr.splitlines() if line.startswith("dmf-plan: line")]
    assert (ran.returncode, ran.stdout, len(told)) == (1, "", len(LINES)), f"refused lines: {ran}"
    for number, ((line, wanted), found) in enumerate(zip(LINES.items(), told), 1):
        assert (
            found.startswith(f"dmf-plan: line {number}: ") and wanted in found
        ), f"{line}: {found}"
    ran = run(
        "dmf-plan",
        PIPES,
        typed="solve\nwhat-if each pipe of the cut\nwhat-if close Mill Lane\nsteps\n",
    )
    trials = swept()
    for name in ("North rise", "Mill Lane", "South main"):
        row = re.search(
            f"^  #[0-9]+ {name}, .*: closed ([0-9]+) .*, a second one ([0-9]+)",
            ran.stdout,
            re.MULTILINE,
        )
        assert (
            row and tuple(map(int, row.groups())) == trials[name]
        ), f"what-if {name}: {ran.stdout}"
    assert (
        "it would be 120 litres per second: 45 less" in ran.stdout
    ), f"what-if close: {ran.stdout}"
    assert ran.stdout.count("solve: value 165") == 1, f"what-if leaves steps: {ran.stdout}"


def test_many() -> None:
    """All arcs of which something is so are changed in one step, which is undone as one."""
    rises = [pipe.name for pipe in water() if "rise" in pipe.name]
    wider = [
        pipe._replace(capacity=2 * pipe.capacity) if pipe.capacity <= 30 else pipe
        for pipe in water()
    ]
    mill = [pipe for pipe in water() if pipe.head != "Mill" or pipe.capacity >= 40]
    limit = {"North rise", "Mill Lane", "South main"}
    more = [
        pipe._replace(capacity=pipe.capacity + 5) if pipe.name in limit else pipe
        for pipe in water()
    ]
    typed = "solve\nclose where name ~ R\u00cdSE\nsolve\nopen where name ~ rise\nsolve\nundo 4\n"
    typed += (
        "cap where capacity <= 30 +100 %\nsolve\nundo 2\nclose where to ~ mill and capacity < 40\n"
        "solve\nundo 2\ncap where limit +5\nsolve\nsteps\n"
    )
    ran = run("dmf-plan", PIPES, typed=typed)
    told = [line for line in ran.stdout.splitlines() if not line.startswith("  ")]
    assert [re.findall("^[0-9]+ [a-z]+(?=:)|^value", line)[0] for line in told] == [
        "value",
        "2 closed",
        "value",
        "2 opened",
        "value",
        "value",
        "4 changed",
        "value",
        "value",
        "1 closed",
        "value",
        "value",
        "3 changed",
        "value",
    ]
    solved = values("".join(f"{told[at]}\n" for at in (0, 2, 4, 7, 10, 13)))
    assert solved == [165, without(*rises), 165, greatest(wider), greatest(mill), greatest(more)]
    assert "2   3 arcs where limit: +5: value 165" in ran.stdout
    lines = [
        "close where",
        "close where and full",
        "close where name = x",
        "cap where full",
        "close where name ~ zzz",
        "cap where full 1,200",
        "open where full",
    ]
    ran = run("dmf-plan", PIPES, typed="solve\n" + "".join(f"{line}\n" for line in lines))
    said = [line.partition(": ")[2].partition(": ")[2] for line in ran.stderr.splitlines()[3:]]
    conditions = "expected after `where`: name ~ TEXT, "
    wanted = [
        conditions,
        conditions,
        "'name = x' is not a condition; expected: name",
        conditions,
        "none of the 14 open arcs meets the conditions",
    ]
    wanted += ["'1,200' may be 1.2 or 1200", "none of the 0 closed arcs meets the conditions"]
    assert all(line.startswith(begin) for line, begin in zip(said, wanted)) and len(said) == len(
        wanted
    ), said


@pytest.mark.parametrize("closing", ["2>&-", "2>/dev/full"])
def test_nowhere_to_tell(closing: str) -> None:
    """Where a refusal cannot be told, what comes after it is carried out all the same."""
    words = ["sh", "-c", f"exec tools/dmf-plan {PIPES} Reservoir Harbour {closing}"]
    ran = subprocess.run(
        words,
        input="close rubbish\nsolve\n",
        stdout=subprocess.PIPE,
        text=True,
        timeout=SECONDS,
        cwd=ROOT,
    )
    assert (ran.returncode, values(ran.stdout)) == (1, [165]), ran


def test_what_is_typed_otherwise() -> None:
    """Commands in capitals, ends as they are printed, and the number that an arc had before it was
    opened again."""
    typed = (
        "SOLVE\nsolve\nadd Mill -> Station 25\nsolve\nclose #9\nopen Mill Lane\nclose #9\nclose "
        "#16\n"
    )
    ran = run("dmf-plan", PIPES, typed=typed)
    told = [line.partition(": line ")[2] for line in ran.stderr.splitlines() if ": line " in line]
    assert told == [
        "1: no command is called 'SOLVE'; is it 'solve' or 'save'?",
        "7: Mill Lane was closed as #9 and opened again as #16",
    ]
    # With the new pipe, 180 litres are the greatest value.
    assert (ran.returncode, values(ran.stdout)[1], len(ran.stdout.splitlines())) == (1, STORY[2], 6)


def test_too_many_steps() -> None:
    """Of more steps than there are none is undone or redone, and the number of those is told."""
    lines = "undo 1", "close Mill Lane", "undo 2", "shut Mill", "undo 3", "undo 2", "redo 3"
    ran = run("dmf-plan", PIPES, typed="".join(f"{line}\n" for line in lines))
    told = [line.partition(": line ")[2] for line in ran.stderr.splitlines() if ": line " in line]
    assert told == [
        "1: nothing to undo",
        "3: only 1 step to undo",
        "5: only 2 steps to undo",
        "7: only 2 steps to redo",
    ]


def test_page(tmp_path: Path) -> None:
    """The sessions on the page of documents are some: the first one, and that of a table with
    costs."""
    lines = [
        line[4:]
        for line in (ROOT / "docs/PLAN.md").read_text().splitlines()
        if line.startswith("    ")
    ]
    prompt = re.compile("[0-9]+, .*greatest> ")
    typed = [line.partition("> ")[2] for line in lines if prompt.match(line)]
    assert len(typed) == 10 and typed[8:] == ["quit", "cost to 175"]
    # A terminal solves at first, and a script is told so.
    ran = run("dmf-plan", PIPES, typed="".join(f"{line}\n" for line in ["solve", *typed[:9]]))
    session = lines[: lines.index("165, greatest> quit")]
    told = [line for line in session if re.match("value |  |closing |shutting ", line)]
    found = ran.stdout.replace(", 165 more", "", 1).splitlines()
    assert (found, ran.returncode) == (told, 0), f"the session of docs/PLAN.md: {ran}"
    costs = {3: 4, 9: 9, 14: 6}
    title, *rows = (ROOT / PIPES).read_text().splitlines()
    table = [
        f"{title},cost",
        *(f"{row},{costs.get(number, 7)}" for number, row in enumerate(rows, 1)),
    ]
    (tmp_path / "costs.csv").write_text("".join(f"{row}\n" for row in table))
    ran = run("dmf-plan", str(tmp_path / "costs.csv"), typed="solve\ncost to 175\n")
    told = [
        line
        for line in lines[lines.index("165, greatest> cost to 175") + 1 :]
        if line.startswith(("what one more ", "  ", "a cheap way"))
    ]
    assert (ran.stdout.splitlines()[1:], ran.returncode) == (
        told,
        0,
    ), f"the second session of docs/PLAN.md: {ran}"


def test_what_was_closed_last_is_opened() -> None:
    """`open` alone opens the place or the arc that was closed last, one after the other, also after
    an undo."""
    lines = ["close Mill Lane", "shut Market", "close Bridge pipe", "undo", "open", "open", "open"]
    ran = run(
        "dmf-plan",
        PIPES,
        typed="".join(
            f"{line}\nsolve\n" if line != "undo" else "undo 2\n" for line in ["solve", *lines]
        ),
    )
    values = [
        int(line.split()[1]) for line in ran.stdout.splitlines() if line.endswith("the greatest")
    ]
    shut = greatest([it for it in water() if "Market" not in it[:2] and it.name != "Mill Lane"])
    assert values[-4:] == [
        shut,
        without("Mill Lane"),
        without(),
        without(),
    ] and ran.stderr.endswith(": nothing is closed\n"), ran
