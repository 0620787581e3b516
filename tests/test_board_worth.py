"""Tests what a board finds of the worth of pipes and places beside its requests, and how its page
shows it, by headless Chromium, beside values that are found by trying all sets of places."""

from __future__ import annotations

import time
from pathlib import Path
from random import Random
from typing import Any

import pytest
from board_pages import Page, told_loss
from board_running import Board, board
from built import heed_interrupts
from c_library import library_file
from client_shared import BUILT, is_running, script
from desk_shared import PIPES, Pipe, greatest, swept, water
from limits import SECONDS

NAMES = [pipe.name for pipe in water()]
# A program whose `vital` waits, and tells its process first.
WAITING = f"""test "$1" = vital || exec "{BUILT}" "$@"
echo $$ >>"$0.processes"
test ! -e "$0.go" || exec "{BUILT}" "$@"
exec sleep 60"""


def worth(it: Board) -> Any:
    """What the board tells once it is found."""
    until = time.monotonic() + SECONDS
    while (told := it.told("worth"))["is_finding"]:
        assert time.monotonic() < until
        time.sleep(0.01)
    return told


def left_of(pipes: list[Pipe]) -> dict[str, int]:
    """What is left without each of some pipes."""
    return {pipe.name: greatest([it for it in pipes if it != pipe]) for pipe in pipes}


def judge(it: Board, pipes: list[Pipe], numbers: dict[str, int]) -> None:
    """Judge what a board tells of pipes, by their numbers."""
    value, left = greatest(pipes), left_of(pipes)
    told = worth(it)
    costly = [name for name in left if left[name] < value]
    wanted = sorted(costly, key=lambda name: (left[name], numbers[name]))
    assert [row["name"] for row in told["worst"]] == wanted[:10]
    assert (told["is_known"], told["more"]) == (True, max(0, len(wanted) - 10))
    losses = {int(number): int(loss) for number, loss in told["losses"].items()}
    assert {name: losses[number] for name, number in numbers.items() if name in left} == {
        name: value - closed for name, closed in left.items()
    }
    for name in left:
        row = it.told(f"arc?number={numbers[name]}")
        assert (row["without"], row["lost"]) == (str(left[name]), str(value - left[name]))
    judge_places(it, pipes, told["places"])


PLACES = [*dict.fromkeys(place for pipe in water() for place in pipe[:2])]


def judge_places(it: Board, pipes: list[Pipe], told: Any) -> None:
    """Judge what a board tells of places. Those of the story have the numbers of their order."""
    value = greatest(pipes)
    left = {name: greatest([it for it in pipes if name not in it[:2]]) for name in PLACES}
    for node, name in enumerate(PLACES, 1):
        row = it.told(f"place?node={node}")
        assert (row["name"], row["without"], row["lost"]) == (
            name,
            str(left[name]),
            str(value - left[name]),
        )
    inner = [name for name in left if name not in ("Reservoir", "Harbour") and left[name] < value]
    wanted = sorted(inner, key=lambda name: (left[name], PLACES.index(name)))
    assert told["more"] == max(0, len(wanted) - 10)
    assert [(row["name"], row["node"], row["without"], row["lost"]) for row in told["worst"]] == [
        (name, PLACES.index(name) + 1, str(left[name]), str(value - left[name]))
        for name in wanted[:10]
    ]


def test_by_the_library(monkeypatch: pytest.MonkeyPatch) -> None:
    """No program begins."""
    monkeypatch.setenv("DMF_LIBRARY", library_file())
    monkeypatch.setenv("DMF", "/nowhere")
    numbers = {name: number for number, name in enumerate(NAMES, 1)}
    with board(PIPES) as it:
        judge(it, water(), numbers)
        it.do(what="close", arc=numbers["Bridge pipe"])
        judge(it, [pipe for pipe in water() if pipe.name != "Bridge pipe"], numbers)


def test_failures(monkeypatch: pytest.MonkeyPatch) -> None:
    """Nothing is known then."""
    with script(f'test "$1" != vital || exit 9\nexec "{BUILT}" "$@"') as program:
        monkeypatch.setenv("DMF", program)
        with board(PIPES) as it:
            told = worth(it)
            assert (told["is_known"], told["worst"], told["places"]["worst"]) == (False, [], [])
            assert it.told("place?node=4")["without"] == ""


def test_each_state() -> None:
    """It is of the network as it is, after each change and each step back."""
    numbers = {name: number for number, name in enumerate(NAMES, 1)}
    with board(PIPES) as it:
        # Before it is found nothing is told of it.
        assert it.told("arc?number=9")["without"] == ""
        assert it.told("place?node=4")["lost"] == ""
        judge(it, water(), numbers)
        it.do(what="close", arc=numbers["Bridge pipe"])
        assert it.told("arc?number=9")["without"] == ""
        pipes = [pipe for pipe in water() if pipe.name != "Bridge pipe"]
        judge(it, pipes, numbers)
        it.do(what="cap", arc=numbers["Mill Lane"], capacity="120")
        wider = [it._replace(capacity=120) if it.name == "Mill Lane" else it for it in pipes]
        judge(it, wider, numbers)
        it.do(what="go", step=0)
        judge(it, water(), numbers)
        rows = it.told("rows?filter=&sort=-lost&first=0&count=14")["rows"]
        losses = [int(row["lost"]) for row in rows]
        assert losses == sorted((165 - left for left, _ in swept().values()), reverse=True)


def test_both_ways(tmp_path: Path) -> None:
    """What is left without a pipe that leads both ways is what is left when it is closed, which
    closes both its arcs."""
    for seed in range(12):
        random = Random(f"both ways {seed}")
        places = ["S", "A", "B", "C", "T"]
        rows = ["from,to,capacity,name,direction"]
        for number in range(9):
            tail, head = random.sample(places, 2)
            rows.append(f"{tail},{head},{random.randint(1, 9)},p{number},<->")
        table = tmp_path / f"{seed}.csv"
        table.write_text("\n".join([*rows, "S,A,3,in,->", "B,T,3,out,->", ""]))
        with board("--source", "S", "--sink", "T", str(table)) as it:
            losses = {int(number): int(loss) for number, loss in worth(it)["losses"].items()}
            value = int(it.told("state")["value"])
            assert [*losses] == [*range(1, 19, 2), 19, 20]
            for number in range(1, 19, 2):
                first, second = (it.told(f"arc?number={at}") for at in (number, number + 1))
                assert first == second
                assert first["without"] == str(value - losses[number])
                closed = it.do(what="close", arc=number)
                assert closed["value"] == first["without"]
                assert closed["at"] == 1
                it.do(what="go", step=0)
                worth(it)


def test_a_click_does_not_wait() -> None:
    """While it is being found, the board answers; a change ends the run, and so does the end of the
    board."""
    with script(WAITING) as program:
        processes = Path(f"{program}.processes")

        def begun() -> list[int]:
            """The runs, once the last one has begun."""
            return [int(line) for line in processes.read_text().split()]

        with pytest.MonkeyPatch.context() as patched:
            patched.setenv("DMF", program)
            it = Board(PIPES, preexec=heed_interrupts)
        try:
            assert it.told("worth") == {**it.told("turn"), "is_finding": True}
            waited(lambda: processes.exists() and len(begun()) == 1)
            assert it.do(what="close", arc=10)["value"] == "155"
            waited(lambda: not is_running(begun()[0]))
            assert it.told("worth")["is_finding"]
            waited(lambda: len(begun()) == 2)
            it.end()
            waited(lambda: not is_running(begun()[1]))
        finally:
            it.ended() if it.process.poll() is not None else it.end()


def waited(is_so: Any) -> None:
    until = time.monotonic() + SECONDS
    while not is_so():
        assert time.monotonic() < until
        time.sleep(0.01)


def test_page(driver: Any) -> None:
    """The page lists the ten that are worst to lose, shows what closing one leaves before it is
    closed, and has a column of the losses; after a change these are of the new state."""
    left = {name: closed for name, (closed, _) in swept().items()}
    with board(PIPES) as it:
        page = Page(driver, it.address)
        page.know_worth()
        wanted = sorted(left, key=lambda name: (left[name], NAMES.index(name)))[:10]
        assert shown(page) == [[name, str(left[name]), str(165 - left[name])] for name in wanted]
        assert "3 more cost something" in page.text("#worst-note")
        driver.execute_script("document.querySelector('#worst-table tbody button').click()")
        page.wait(lambda: wanted[0] in page.text("#what h3"))
        page.wait(lambda: page.fact("Closing this") == told_loss(165, left[wanted[0]]))
        page.press("All")
        cells = (
            "return [...document.querySelectorAll('#grid tbody td.lost')].map(it => it.textContent)"
        )
        page.wait(
            lambda: driver.execute_script(cells)
            == [str(165 - left[name]) if left[name] < 165 else "" for name in NAMES]
        )
        it.do(what="close", arc=NAMES.index("Bridge pipe") + 1)
        page.wait(lambda: page.value() == 155)
        page.know_worth()
        less = left_of([pipe for pipe in water() if pipe.name != "Bridge pipe"])
        wanted = sorted(less, key=lambda name: (less[name], NAMES.index(name)))[:10]
        page.wait(
            lambda: shown(page)
            == [[name, str(less[name]), str(155 - less[name])] for name in wanted]
        )


def test_places_on_the_page(driver: Any) -> None:
    """The page lists the places that are worst to lose, and says what is left without the chosen
    one before it is shut; after a change, and without its source, as well."""
    with board(PIPES) as it:
        page = Page(driver, it.address)
        page.know_worth()
        left = {name: greatest([one for one in water() if name not in one[:2]]) for name in PLACES}
        inner = [name for name in PLACES if name not in ("Reservoir", "Harbour")]
        costly = sorted((name for name in inner if left[name] < 165), key=lambda name: left[name])
        assert shown(page, "worst-places-table") == [
            [name, str(left[name]), str(165 - left[name])] for name in costly
        ]
        assert page.text("#worst-places-note").endswith("if one of these places is shut.")
        driver.execute_script("document.querySelector('#worst-places-table tbody button').click()")
        page.wait(lambda: page.text("#what h3") == costly[0])
        page.wait(lambda: page.fact("Shutting it") == told_loss(165, left[costly[0]]))
        it.do(what="close", arc=NAMES.index("Bridge pipe") + 1)
        page.wait(lambda: page.value() == 155)
        pipes = [one for one in water() if one.name != "Bridge pipe"]
        less = greatest([one for one in pipes if costly[0] not in one[:2]])
        page.wait(lambda: page.fact("Shutting it") == told_loss(155, less))
        it.do(what="shut", node=PLACES.index(costly[0]) + 1)
        page.wait(lambda: page.value() == less)
        page.wait(lambda: page.text("#what .chips") == "shut")
        assert page.fact("Shutting it") == ""


def shown(page: Page, table: str = "worst-table") -> list[list[str]]:
    """The rows of the worst, without the ends of the pipes."""
    rows = page.driver.execute_script(
        f"return [...document.querySelectorAll('#{table} tbody tr')].map(row => "
        "[...row.cells].map(it => it.textContent))"
    )
    return [[name.partition(",")[0], *numbers] for name, *numbers in rows]
