"""Numbers, units and limits on a board's page, and what it says of a part of a large network, by
headless Chromium."""

from __future__ import annotations

import itertools
from pathlib import Path
from typing import Any

import pytest
from board_pages import Page
from board_running import board

pytestmark = pytest.mark.seconds(20)


def test_part(driver: Any, tmp_path: Path) -> None:
    """Of a large network the page lists what is worst to lose of all, also of those that its
    picture does not show."""
    rows = ["from,to,litres,pipe", "S,A,100,main"]
    for chain, least in ("B", 30), ("C", 20):
        places = ["A", *(f"{chain}{place}" for place in range(1, 400)), "T"]
        rows += [
            f"{tail},{head},{least if head == 'T' else 60},{chain}-{head}"
            for tail, head in zip(places, places[1:])
        ]
    table = tmp_path / "chains.csv"
    table.write_text("".join(f"{row}\n" for row in rows))
    with board(str(table)) as it:
        page = Page(driver, it.address)
        assert (page.value(), "main" in page.text("#arcs")) == (50, False)
        page.know_worth()
        # Without the first pipe all is lost.
        assert page.text("#worst-table tbody tr").split("\t")[1:] == ["0", "50"]
        assert page.text("#worst-table tbody td").startswith("main")
        drawn = "return document.querySelectorAll('#picture g.arc').length"
        assert page.driver.execute_script(drawn) == 300
        page.press("What would a second one bring?")
        page.wait(lambda: "Best" in page.text("#seconds-told"))
        assert page.text("#seconds-told") == "Best to have a second of: B-T, 30 litres more."
        page.write("#text", "B")
        page.wait(lambda: "There are more" in page.text("#found"))
        page.write("#text", "B399")
        page.wait(
            lambda: page.text("#found").splitlines()
            == ["B399", "B-B399, B398 -> B399", "B-T, B399 -> T"]
        )
        driver.get("about:blank")


# Two sources, of which one is unlimited, and a place that lets 55.5 litres through, as in
# tests/her_table.py.
NUMBERS = """c capacities are those of the table times 100
c unit litres
c table pipes.csv
c decimal sign ,
c inner node 7 sources
c inner node 6 half 2
c inner arc 5 limit 2
c inner arc 6 supply 1 unlimited
c inner arc 7 supply 3
c node 1 Mill
c node 2 Weir
c node 3 New Mill
c node 4 Town
c node 6 Weir
c node 7 all sources
c arc 1 Main
c arc 2 Side
c arc 3 Long
c arc 4 Short
c arc 5 limit of Weir
c arc 6 supply of Mill
c arc 7 supply of New Mill
p max 7 7
n 7 s
n 4 t
a 1 2 4730
a 3 2 3050
a 6 4 4025
a 6 4 2240
a 2 6 5550
a 7 1 4730
a 7 3 2005
"""


def test_numbers(driver: Any, tmp_path: Path) -> None:
    """Decimal numbers and their unit, what a planner types, and limits of places and sources, at 3
    widths, light and dark."""
    (tmp_path / "pipes.max").write_text(NUMBERS)
    with board(str(tmp_path / "pipes.max")) as it:
        page = Page(driver, it.address)

        def says(*texts: str) -> None:
            said = {
                "what": page.text("#what"),
                "header": page.text("header"),
                "limit": page.text("#limit-table"),
                "way": page.text("#way"),
            }
            assert all(any(text in it for it in said.values()) for text in texts), (texts, said)

        assert (
            page.text("#value")
            == "55.5 litres can be sent from Mill and New Mill to Town, and not more."
        )
        assert page.text("#legend") == "45/60: 45 litres flow where 60 fit"
        says("what Weir lets through", "in litres")
        page.press("what Weir lets through")
        page.wait(lambda: page.text("#what h3") == "Weir")
        told = {"Comes in": "55.5", "Goes out": "55.5", "What Weir lets through": "55.5 of 55.5"}
        assert {term: page.fact(term) for term in told} == told
        assert page.text("#what .chips") == "bottleneck: lets through all it can"
        for typed, value, step in (
            ("70,25", "62.65", "70.25"),
            ("-10 %", "62.65", "63.225"),
            ("1.200", "62.65", "1200"),
            ("30", "30", "30"),
        ):
            page.write("#capacity-5", typed)
            page.settle()
            page.press("Set")
            page.settle()
            page.wait(
                lambda: page.text("#way [aria-current]").startswith(
                    f"Weir lets through {step} litres: {value} ("
                )
            )  # noqa: B023
            says(f"{value} litres can be sent", f"Weir lets through {step} litres: {value}")
        page.choose("node-1", "Mill")
        assert page.fact("What Mill gives at most").endswith(", no limit")
        assert page.text("#what .chips") == "a source"
        page.write("#capacity-6", "5,5")
        page.press("Set")
        page.wait(lambda: "Mill gives at most 5.5 litres: 25.55" in page.text("#way"))
        page.settle()
        assert page.fact("What Mill gives at most") == "5.5 of 5.5"
        assert page.text("#what .chips") == "a source bottleneck: gives all it can"
        page.know_worth()
        worst = page.text("#worst-table tbody tr")
        assert worst.startswith("Side") and worst.endswith("20.05"), worst
        for width, scheme in itertools.product((400, 768, 1280), ("light", "dark")):
            metrics = {
                "width": width,
                "height": 900,
                "deviceScaleFactor": 1,
                "mobile": width == 400,
            }
            driver.execute_cdp_cmd("Emulation.setDeviceMetricsOverride", metrics)
            driver.execute_cdp_cmd(
                "Emulation.setEmulatedMedia",
                {"features": [{"name": "prefers-color-scheme", "value": scheme}]},
            )
            driver.refresh()
            page.ready()
            assert driver.execute_script("return document.documentElement.scrollWidth") <= width
            # A narrow page has no room for some labels.
            drawn = driver.execute_script(
                "return [...document.querySelectorAll('#picture text')].map((it) => "
                "it.textContent).join('; ')"
            )
            assert all(
                text in drawn for text in ("gives 5.5/5.5", "lets through 25.55/30", "20.05/30.5")
            ), drawn
            assert not any(
                text in page.text("body") for text in ("all sources", "limit of", "supply of")
            )
        driver.execute_cdp_cmd("Emulation.clearDeviceMetricsOverride", {})
        driver.execute_cdp_cmd("Emulation.setEmulatedMedia", {"features": []})
        driver.get("about:blank")
