"""A random walk over a board's page in two tabs: clicks, keys, edits of one and of many, undo and
redo, reloads, tabs that are closed and opened, and requests from elsewhere. After each step the
page, its table and its picture show what a list of whole states says, whose values networkx finds.
"""

from __future__ import annotations

import random
from collections.abc import Callable
from dataclasses import dataclass, field, replace
from typing import Any

import networkx
import pytest
from board_pages import Page
from board_running import Board, board
from desk_shared import PIPES, water

pytestmark = pytest.mark.seconds(60)
STEPS, LONG_STEPS = 60, 1_000
SOURCE, SINK = "Reservoir", "Harbour"
AMOUNTS: list[tuple[str, Callable[[int], int]]] = [
    ("60", lambda _: 60),
    ("+10", lambda present: present + 10),
    ("-15", lambda present: present - 15),
    ("0", lambda _: 0),
]
# What the page shows: the value, the step that it is at and how many there are, the rows of the
# table, and the arcs of the picture.
SHOWN = """
const texts = (at) => [...document.querySelectorAll(at)];
return [document.querySelector("#value strong").textContent,
  texts("#way button").findIndex((it) => it.ariaCurrent),
  texts("#way button").length,
  texts("#grid tbody tr[id]").map((row) =>
    ["name", "from", "to", "capacity", "change"]
      .map((kind) => row.querySelector("td." + kind).textContent)),
  texts("#picture g.arc").map((arc) =>
    [Number(arc.id.slice(4)), [...arc.querySelectorAll("text")].at(-1).textContent])];
"""
Key = tuple[str, str, str, str, bool]


@dataclass(frozen=True)
class Row:
    """An arc, as the table has it."""

    name: str
    tail: str
    head: str
    capacity: int
    is_closed: bool = False

    def told(self) -> Key:
        return (
            self.name or f"{self.tail} -> {self.head}",
            self.tail,
            self.head,
            str(self.capacity),
            self.is_closed,
        )


State = tuple[Row, ...]


@dataclass
class Model:
    """All states, and which is the present one."""

    states: list[State] = field(
        default_factory=lambda: [tuple(Row(it.name, *it[:3]) for it in water())]
    )
    at: int = 0

    @property
    def rows(self) -> State:
        return self.states[self.at]

    def step(self, rows: list[Row]) -> None:
        self.states[self.at + 1 :] = [tuple(rows)]
        self.at += 1

    def value(self) -> int:
        graph = networkx.DiGraph()
        graph.add_nodes_from((SOURCE, SINK))
        for row in self.rows:
            if not row.is_closed:
                before = graph.get_edge_data(row.tail, row.head, {"capacity": 0})["capacity"]
                graph.add_edge(row.tail, row.head, capacity=before + row.capacity)
        return int(networkx.maximum_flow_value(graph, SOURCE, SINK))

    def close(self, places: list[int]) -> None:
        self.step(
            [
                replace(row, is_closed=row.is_closed or place in places)
                for place, row in enumerate(self.rows)
            ]
        )

    def open(self, places: list[int]) -> None:
        """What is opened again is a new arc, at the end."""
        kept = [row for place, row in enumerate(self.rows) if place not in places]
        self.step([*kept, *(replace(self.rows[place], is_closed=False) for place in places)])

    def double(self, places: list[int]) -> None:
        self.step([*self.rows, *(replace(self.rows[place], name="") for place in places)])

    def cap(self, places: list[int], to: Callable[[int], int]) -> bool:
        """Whether that can be: no capacity is below 0."""
        if any(to(self.rows[place].capacity) < 0 for place in places):
            return False
        self.step(
            [
                replace(row, capacity=to(row.capacity)) if place in places else row
                for place, row in enumerate(self.rows)
            ]
        )
        return True


class Walk:
    """A walker on a page, and what it should show."""

    def __init__(self, page: Page, it: Board, chance: random.Random) -> None:
        self.page, self.it, self.chance, self.model = page, it, chance, Model()

    def click_row(self, place: int, shift: bool = False) -> None:
        row = self.page.find(f"#row-{place} .name")
        self.page.driver.execute_script("arguments[0].scrollIntoView({ block: 'center' })", row)
        actions = self.page.actions()
        if shift:
            actions.key_down("\ue008")
        actions.click(row)
        if shift:
            actions.key_up("\ue008")
        actions.perform()

    def one(self) -> str:
        """Something is done to one arc, beside the table."""
        place = self.chance.randrange(len(self.model.rows))
        row = self.model.rows[place]
        self.click_row(place)
        # Another arc of the same name may have been chosen before.
        self.page.settle()
        self.page.wait(
            lambda: self.page.text("#what h3") == row.told()[0]
            and row.tail in self.page.text("#what p")
        )
        if row.is_closed:
            self.model.open([place])
            self.page.press("Open it again")
            return f"open {row}"
        what = self.chance.choice(("close", "double", "cap"))
        if what == "cap":
            text, to = self.chance.choice(AMOUNTS)
            self.page.write("#capacity", text)
            self.page.keys("#capacity", "\ue007")
            return f"{self.model.cap([place], to)} {text} {row}"
        {"close": self.model.close, "double": self.model.double}[what]([place])
        self.page.press({"close": "Close it", "double": "Put a second one beside it"}[what])
        return f"{what} {row}"

    def many(self) -> str:
        """Something is done to several arcs."""
        first = self.chance.randrange(len(self.model.rows) - 1)
        last = self.chance.randrange(first + 1, min(first + 5, len(self.model.rows)))
        self.click_row(first)
        self.click_row(last, shift=True)
        # As many of other rows may have been chosen before.
        self.page.settle()
        opened, closed = (
            [at for at in range(first, last + 1) if self.model.rows[at].is_closed == is_so]
            for is_so in (False, True)
        )
        count = last - first + 1
        told = f"{count} chosen, {len(opened)} open"
        try:
            self.page.wait(lambda: self.page.text("#many-told").startswith(told))
        except Exception:
            seen = self.page.text("#many-told"), self.page.text("#trouble")
            pytest.fail(f"rows {first} to {last} of {self.model.rows}: {seen}, and not {told}")
        what = self.chance.choice(
            ["close", "double", "cap"] * bool(opened) + ["open"] * bool(closed)
        )
        if what == "open":
            self.model.open(closed)
            self.page.press(f"Open {len(closed)} again")
        elif what == "close":
            self.model.close(opened)
            self.page.press(f"Close {len(opened)}")
        elif what == "double":
            self.model.double(opened)
            self.page.press(
                "Put a second one beside it"
                if len(opened) == 1
                else f"Put a second one beside each of {len(opened)}"
            )
        else:
            text, to = self.chance.choice(AMOUNTS)
            self.page.write("#many-capacity", text)
            what = f"{self.model.cap(opened, to)} {text}"
            self.page.press(f"Set {len(opened)}")
        return f"{what} {first} to {last}"

    def back(self) -> str:
        """Undo and redo, by a button, by keys, or by a click on a step."""
        to = self.chance.choice(
            [self.model.at - 1, self.model.at + 1, self.chance.randrange(len(self.model.states))]
        )
        to = min(max(to, 0), len(self.model.states) - 1)
        by = to - self.model.at
        self.model.at = to
        if abs(by) == 1 and self.chance.random() < 0.5:
            self.page.keys("#grid", "\ue009", "z" if by < 0 else "y")
        elif abs(by) == 1:
            self.page.click("#undo" if by < 0 else "#redo")
        else:
            steps = self.page.driver.find_elements("css selector", "#way button")
            self.page.reached(steps[to]).click()
        return f"go to {to}"

    def other_tab(self) -> str:
        """Goes on in the other tab, which shows the same by itself; at times in a new one, in place
        of this one or of the other."""
        driver = self.page.driver
        here, there = driver.current_window_handle, next(
            it for it in driver.window_handles if it != driver.current_window_handle
        )
        gone = self.chance.choice((here, there, "", "", "", ""))
        if gone:
            driver.switch_to.window(gone)
            driver.close()
            driver.switch_to.window(here if gone == there else there)
            driver.switch_to.new_window("tab")
            self.page = Page(driver, self.it.address)
        else:
            driver.switch_to.window(there)
        return (
            f"the {'new' if gone else 'other'} tab{' after the end of this one' * (gone == here)}"
        )

    def elsewhere(self) -> str:
        """Something is done by a request alone."""
        place = self.chance.randrange(len(self.model.rows))
        number = self.it.told("numbers?filter=&sort=&first=0&count=500")["numbers"][place]
        is_closed = self.model.rows[place].is_closed
        (self.model.open if is_closed else self.model.close)([place])
        assert "error" not in self.it.do(what="open" if is_closed else "close", arc=number)
        return f"elsewhere {place}"

    def reload(self) -> str:
        self.page.driver.refresh()
        try:
            self.page.ready()
        except Exception:
            ended = self.it.process.poll()
            pytest.fail(
                f"a reload shows {self.page.text('body')!r}; the board "
                f"{'runs' if ended is None else f'has ended with {ended}'}"
            )
        return "reload"

    def judge(self, done: str) -> None:
        """Waits until the page shows what the model says."""
        wanted = [
            str(self.model.value()),
            self.model.at,
            len(self.model.states),
            [list(row.told()) for row in self.model.rows],
        ]
        now: Any = None

        def is_shown() -> bool:
            nonlocal now
            value, at, count, rows, arcs = self.page.driver.execute_script(SHOWN)
            told = [[*row[:4], "closed" in row[4]] for row in rows]
            ends = [(number, text.rpartition("/")[2]) for number, text in arcs]
            now = [value, at, count, told]
            if now != wanted:
                return False
            numbers = self.it.told("numbers?filter=&sort=&first=0&count=500")["numbers"]
            capacities = [
                (number, "closed" if row.is_closed else str(row.capacity))
                for number, row in zip(numbers, self.model.rows)
            ]
            now.append(sorted(ends))
            return sorted(ends) == sorted(capacities)

        try:
            self.page.wait(is_shown)
        except Exception:
            pytest.fail(f"after {done}: the page shows {now}, and not {wanted}")
        self.page.settle()
        judge_flow(self.page, self.model)


def judge_flow(page: Page, model: Model) -> None:
    """The picture's flows are a flow of the value: within the capacities, and at each place as much
    comes in as goes out."""
    arcs = page.driver.execute_script(SHOWN)[4]
    flows = [0 if text == "closed" else int(text.partition("/")[0]) for _, text in sorted(arcs)]
    balance: dict[str, int] = {}
    for flow, row in zip(flows, model.rows):
        assert 0 <= flow <= row.capacity
        balance[row.tail] = balance.get(row.tail, 0) - flow
        balance[row.head] = balance.get(row.head, 0) + flow
    assert {place: by for place, by in balance.items() if by} == (
        {SOURCE: -model.value(), SINK: model.value()} if model.value() else {}
    )


def test_walk(driver: Any, request: pytest.FixtureRequest) -> None:
    steps = request.config.getoption("--cases") or (
        LONG_STEPS if request.config.getoption("--long") else STEPS
    )
    chance = random.Random(request.config.getoption("--seed"))
    with board(PIPES) as it:
        walk = Walk(Page(driver, it.address), it, chance)
        driver.switch_to.new_window("tab")
        Page(driver, it.address)
        kinds = (
            [walk.one] * 4
            + [walk.many] * 3
            + [walk.back] * 4
            + [walk.other_tab] * 2
            + [walk.elsewhere]
            + [walk.reload]
        )
        done = ["the beginning"]
        for _ in range(steps):
            walk.judge("; ".join(done[-3:]))
            if len(walk.model.rows) > 30:
                # Rows past what is seen cannot be clicked.
                walk.model.at = 0
                walk.page.click("#way button")
                walk.judge("back to the file")
            done.append(chance.choice(kinds)())
        for tab in driver.window_handles:
            driver.switch_to.window(tab)
            walk.judge("; ".join(done[-3:]))
        driver.close()
        driver.switch_to.window(driver.window_handles[0])
        driver.get("about:blank")
