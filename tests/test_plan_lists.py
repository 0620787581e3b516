"""What tools/dmf-plan lists: pipes, flows and places, and which demands are met."""

from __future__ import annotations

import json
import re
from pathlib import Path

import pytest
from desk_shared import PIPES, ROOT, run, values, water, without


def test_lists() -> None:
    """Places with what comes in and goes out, and arcs by conditions and by their beginning."""
    ran = run("dmf-plan", PIPES, typed="solve\nplaces\npipes\n")
    flows = {
        name: int(flow)
        for name, flow in re.findall(
            "^  #[0-9]+ (.*), .* -> .*: ([0-9]+) of ", ran.stdout, re.MULTILINE
        )
    }
    assert list(flows) == [pipe.name for pipe in water()]
    told = {
        name: (int(come), int(go))
        for name, come, go in re.findall(
            "^  (.*): ([0-9]+) in, ([0-9]+) out", ran.stdout, re.MULTILINE
        )
    }
    places = {place for pipe in water() for place in pipe[:2]}
    wanted = {
        place: (
            sum(flows[it.name] for it in water() if it.head == place),
            sum(flows[it.name] for it in water() if it.tail == place),
        )
        for place in places
    }
    assert told == wanted and "\n  Harbour: 165 in, 0 out, a sink\n" in ran.stdout
    ran = run(
        "dmf-plan",
        PIPES,
        typed="close Mill Lane\nsolve\nfrom Mill\npipes where limit\npipes where capacity < 30 and "
        "from ~ m\nplaces\n",
    )
    assert re.findall("#[0-9]+ (.*?), Mill -> .*: ([a-z]*)", ran.stdout)[:2] == [
        ("Mill Lane", "closed"),
        ("Bridge pipe", ""),
    ]
    limit = re.findall("#[0-9]+ (.*?),.*, limit$", ran.stdout, re.MULTILINE)
    assert (
        sum(pipe.capacity for pipe in water() if pipe.name in limit)
        == without("Mill Lane")
        == values(ran.stdout)[-1]
    )
    small = [pipe.name for pipe in water() if pipe.capacity < 30 and pipe.tail[0] == "M"]
    assert [name for name in re.findall("#[0-9]+ (.*?),", ran.stdout)][-len(small) :] == small
    for line, why in (
        ("worst no", "'no' is not a number"),
        ("pipes full", "usage: pipes"),
        ("from", "usage: from"),
        ("places x", "usage: places"),
    ):
        assert why in run("dmf-plan", PIPES, typed=f"solve\n{line}\n").stderr
    assert "so the limit is not known" in run("dmf-plan", PIPES, typed="pipes where limit\n").stderr
    objects = [
        json.loads(line)
        for line in run(
            "dmf-plan", "--json", PIPES, typed="solve\nfrom Mill\nwhat-if each arc\npipes\n"
        ).stdout.splitlines()
    ]
    assert [it["event"] for it in objects] == ["change", "flow", "sweep", "flow"]
    assert [len(objects[1]["arcs"]), len(objects[2]["trials"]), len(objects[3]["arcs"])] == [
        2,
        14,
        14,
    ]


@pytest.mark.parametrize("listed", ["pipes", "flow", "from A", "places"])
def test_no_flow_yet(tmp_path: Path, listed: str) -> None:
    """Before the first solve, and once it is undone, a list says why nothing flows. Where 0 is the
    greatest value, nothing needs saying."""
    (tmp_path / "t.csv").write_text("from,to,capacity\nA,B,5\nB,C,4\n")
    script = f"{listed}\nsolve\n{listed}\nundo\n{listed}\nshut B\n{listed}\nsolve\n{listed}\n"
    lines = run("dmf-plan", f"{tmp_path}/t.csv", typed=script).stdout.splitlines()
    values = [at for at, it in enumerate(lines) if it.startswith("value ")]
    told = [at for at, it in enumerate(lines) if it.startswith("there is no flow yet: `solve`")]
    # Of the four values, none stands before the first list, and two before the second.
    assert [sum(value < at for value in values) for at in told] == [0, 2] and len(values) == 4


def test_demands() -> None:
    """Which shops get what they ordered: the flows on the routes to them beside their orders."""
    supply = ROOT / "examples/supply"
    rows = (supply / "orders.csv").read_text().splitlines()[1:]
    orders = {shop: int(pallets) for shop, pallets in (row.split(",") for row in rows)}
    ran = run(
        "dmf-plan",
        f"--sources={supply}/stock.csv",
        f"--sinks={supply}/orders.csv",
        f"{supply}/routes.csv",
        typed='solve\nplaces\nshut "East Depot"\nsolve\npipes\nplaces\nshut Abbey\nplaces\n',
    )
    all_met, _, flooded, shut = re.split("^value .*\n", ran.stdout, flags=re.MULTILINE)[1:]
    assert shops(all_met) == {shop: (ordered, ordered, 0) for shop, ordered in orders.items()}
    assert all_met.splitlines()[-1] == "all demands are met"
    brought = dict.fromkeys(orders, 0)
    for shop, flow in re.findall("^  #[0-9]+ .* -> (.*): ([0-9]+) of", flooded, re.MULTILINE):
        brought[shop] += int(flow)
    wanted = {shop: (met, orders[shop], orders[shop] - met) for shop, met in brought.items()}
    # examples/supply/README.md has the value.
    assert shops(flooded) == wanted and sum(short for *_, short in wanted.values()) == 150 - 126
    short = {shop: it for shop, it in wanted.items() if it[2]}
    told = ", ".join(f"{shop} ({it[0]} of {it[1]})" for shop, it in sorted(short.items()))
    assert flooded.splitlines()[-1] == f"short by 24 pallets: {' and '.join(told.rsplit(', ', 1))}"
    assert shops(shut) == {**wanted, "Abbey": (0, 18, 18)}
    assert shut.splitlines()[-1].startswith("short by 42 pallets: Abbey (0 of 18), ")


def shops(text: str) -> dict[str, tuple[int, int, int]]:
    """What comes into each sink, what it asks for, and what it is said to be short of."""
    lines = re.findall(
        "^  (.*): ([0-9]+) of ([0-9]+) in, 0 out, a sink(?:, ([0-9]+) short)?(?:, |$)",
        text,
        re.MULTILINE,
    )
    return {shop: (int(met), int(ordered), int(short or 0)) for shop, met, ordered, short in lines}
