"""Tests tools/dmf-board by plain requests: what its server refuses and what it answers."""

from __future__ import annotations

import json
import tempfile
import threading
import time
from pathlib import Path
from typing import Any, Optional
from xml.etree import ElementTree

from board_running import board
from desk_shared import ODD, PIPES, swept, without

# Requests of a wrong form: the path, the body or None, and what is said.
FORMS: list[tuple[str, Optional[bytes], str]] = [
    ("picture", None, "expected the parameters ['near'], got []"),
    ("picture?near=x", None, "near must be a whole number"),
    ("picture?near=&form=x", None, "form must be a whole number"),
    ("arc?number=1&number=2", None, "a parameter of the address is given twice"),
    ("arc?number", None, "the parameters of the address must have the form NAME=TEXT"),
    ("state?x=1", None, "expected the parameters []"),
    ("plan.csv", None, "expected the parameters ['turn']"),
    ("do", b"", "not valid JSON"),
    ("do", b"[1]", "a JSON object"),
    ("do", b"\xff", "not valid JSON"),
    ("do", b"[" * 60_000, "not valid JSON"),
    ("do", b"{}", "what must be one of close,"),
    ("do", b'{"what": "system"}', "what must be one of close,"),
    ("do", b'{"what": ["close"]}', "what must be one of close,"),
    ("do", b'{"what": "close"}', "expected the fields ['arc', 'turn'], got []"),
    (
        "do",
        b'{"what": "close", "arc": 1}',
        "expected the fields ['arc', 'turn'], got ['arc']",
    ),
    ("do", b'{"what": "close", "arc": 1, "turn": "1"}', "the field turn must be a whole number"),
    ("do", b'{"what": "close", "arc": "1", "turn": 1}', "the field arc must be a whole number"),
    ("do", b'{"what": "close", "arc": true, "turn": 1}', "the field arc must be a whole number"),
    ("do", b'{"what": "close", "arc": 1, "turn": 1, "x": 2}', "expected the fields"),
    (
        "do",
        b'{"what": "cap", "arc": 1, "turn": 1, "capacity": 5}',
        "the field capacity must be a text",
    ),
    (
        "do",
        b'{"what": "add", "tail": 1, "head": "Mill", "turn": 1, "capacity": "5", "name": "'
        + b"x" * 5_000
        + b'"}',
        "is longer than",
    ),
    (
        "do",
        b'{"what": "close", "arc": 1, "turn": 1, "shown": "rows"}',
        "shown must be a list of at most 8 addresses",
    ),
    (
        "do",
        b'{"what": "close", "arc": 1, "turn": 1, "shown": [1]}',
        "shown must be a list of addresses",
    ),
    ("seconds", b'{"arcs": [1]}', "expected a list"),
    ("seconds", b'{"arcs": 1, "turn": 1}', "expected a list"),
    ("seconds", b'{"arcs": ["1"], "turn": 1}', "whole numbers"),
]
# Headers of a wrong form, and what is said.
HEADERS: list[tuple[dict[str, Any], str]] = [
    ({"Content_Type": "text/plain"}, "the type application/json"),
    ({"Content_Type": "application/json", "Content_Length": "99999999"}, "a body of at most"),
    ({"Content_Type": "application/json", "Content_Length": "-1"}, "a body of at most"),
    ({"Content_Type": "application/json", "Content_Length": None}, "a body of at most"),
]
# What the desk refuses, and what is said.
REFUSED: list[tuple[dict[str, Any], str]] = [
    ({"what": "close", "arc": 99}, "arc #99 does not exist"),
    ({"what": "close", "arc": 0}, "arc #0 does not exist"),
    ({"what": "close", "arc": -1}, "arc #-1 does not exist"),
    ({"what": "open", "arc": 1}, "is open"),
    ({"what": "cap", "arc": 1, "capacity": "1,200"}, "'1,200' may be 1.2 or 1200"),
    (
        {"what": "cap", "arc": 1, "capacity": "-200 %"},
        "'-200 %' changes 110 to -110, which is below 0",
    ),
    (
        {"what": "cap", "arc": 1, "capacity": "1e-30"},
        "with the decimals of 0.000000000000000000000000000001 the sum of the capacities would be "
        "past",
    ),
    ({"what": "cap", "arc": 99, "capacity": "5"}, "arc #99 does not exist"),
    ({"what": "cap", "arc": 1, "capacity": ""}, "expected a number"),
    ({"what": "cap", "arc": 1, "capacity": "18446744073709551616"}, "is past 18446744073709551615"),
    ({"what": "shut", "node": 99}, "place #99 does not exist"),
    ({"what": "open-place", "node": 5}, "is not shut"),
    (
        {"what": "add", "tail": 5, "head": "Statoin", "capacity": "5", "name": ""},
        "no place is called 'Statoin'; is it 'Station'?",
    ),
    ({"what": "go", "step": 7}, "step 8 does not exist"),
    ({"what": "go", "step": -1}, "nothing to undo"),
]


# What a page shows beside a state, and what is no part of one.
SHOWN = [
    "picture?near=",
    "rows?filter=&sort=-flow&first=0&count=5",
    "arc?number=2",
    "place?node=5",
    "scenarios",
]
NOT_SHOWN = ["arc?number=99", "arc?x=1", "plan.csv?turn=2", "costs?column=&to=&second=0", "nothing"]


def test_an_act_tells_what_is_shown() -> None:
    """By one request: each part is what the board answers to the address of it then."""
    with board(PIPES) as it:
        told = it.do(what="close", arc=12, shown=SHOWN)
        assert told["parts"] == {address: it.told(address) for address in SHOWN}
        told = it.do(what="go", step=0, shown=[SHOWN[2], *NOT_SHOWN])
        assert list(told["parts"]) == [SHOWN[2]] and told["parts"][SHOWN[2]]["turn"] == it.turn()
        assert "parts" not in it.do(what="go", step=1)


def test_what_is_lost() -> None:
    """In amounts of the table, by all sets of places."""
    with board(PIPES) as it:
        while it.told("worth")["is_finding"]:
            time.sleep(0.02)
        for row in it.told("rows?filter=&sort=&first=0&count=20")["rows"]:
            without, _ = swept()[row["name"]]
            assert (row["without"], row["lost"]) == (str(without), str(165 - without)), row["name"]
        # The story's page: without the Bridge pipe it is 155.
        told = it.do(what="close", arc=10)
        assert (told["moved"], told["by"]) == ("10 less", "10 less")
        told = it.do(what="close", arc=12)
        assert (told["moved"], told["by"]) == ("no change", "10 less")
        assert [step["by"] for step in told["steps"]] == ["", "10 less", "no change"]
        assert it.do(what="go", step=0)["moved"] == "10 more"


def test_requests() -> None:
    with board(PIPES) as it:
        for path, body, wanted in FORMS:
            status, _, told = it.ask(
                it.root + path, body, Content_Type="application/json" if body is not None else None
            )
            assert (
                status == 400 and wanted in json.loads(told)["error"]
            ), f"{path} {body!r:.60}: {status}, {told!r}"
        for headers, wanted in HEADERS:
            status, _, told = it.ask(it.root + "do", b'{"what": "close", "arc": 1}', **headers)
            assert status == 400 and wanted.encode() in told, f"{headers}: {status}, {told!r}"
        for content, wanted in REFUSED:
            answer = it.do(**content)
            assert wanted in answer.get("error", ""), f"{content}: {answer}"
        assert it.ask(it.root + "nothing")[0] == 404
        assert it.ask(it.root + "do", b"{}", method="PUT")[0] == 501
        state = it.state()
        assert (state["value"], len(state["steps"])) == (
            "165",
            1,
        ), f"after what was refused: {state}"


def test_side_by_side() -> None:
    """Of requests that come at once from pages that show the same, one is carried out. The others
    are told that the network has changed."""
    with board(PIPES) as it:
        answers: list[Any] = []
        turn = it.turn()
        closing = [
            threading.Thread(
                target=lambda arc=arc: answers.append(it.do(what="close", arc=arc, turn=turn))
            )
            for arc in (12, 10, 5)
        ]
        for one in closing:
            one.start()
        for one in closing:
            one.join()
        refused = [one["error"] for one in answers if "error" in one]
        assert refused == 2 * ["the network has changed in another tab: look again"], answers
        assert len(it.state()["steps"]) == 2
        assert it.do(what="go", step=0)["value"] == "165"


def test_turns() -> None:
    """What a page asks for that shows a state that has passed is refused, whatever it is; and each
    answer says which state it is of."""
    with board(PIPES) as it:
        first = it.turn()
        assert it.do(what="close", arc=12)["turn"] > first
        second = it.turn()
        assert it.do(what="close", arc=10)["turn"] > second
        done: list[dict[str, Any]] = [
            {"what": "go", "step": 0},
            {"what": "close", "arc": 5},
            {"what": "again"},
        ]
        done += [{"what": "add", "tail": 1, "head": "Mill", "capacity": "5", "name": ""}]
        for turn in first, second:
            for content in done:
                told = it.do(**content, turn=turn)
                assert (told["error"], told["turn"]) == (
                    "the network has changed in another tab: look again",
                    it.turn(),
                ), content
            assert b"look again" in it.post("seconds", arcs=[1], turn=turn)[1]
            for file in (
                f"plan.csv?turn={turn}",
                f"problem.max?turn={turn}",
                f"picture.svg?near=&turn={turn}",
            ):
                assert it.ask(it.root + file)[0] == 409, file
        state = it.state()
        assert (state["at"], len(state["steps"])) == (
            2,
            3,
        ), "something was done to another state than a page showed"
        for path in (
            "state",
            "picture?near=",
            "arc?number=1",
            "place?node=5",
            "find?text=mill",
            "turn",
        ):
            assert it.told(path)["turn"] == state["turn"], path
        # A step back is another state too, and what is refused changes none.
        assert it.do(what="go", step=1)["turn"] > state["turn"]
        now = it.turn()
        assert "error" in it.do(what="close", arc=99)
        assert it.turn() == now


def test_shut_places() -> None:
    """A place that was opened again is shut no more; an arc between two shut places opens with the
    second one."""
    with board(PIPES) as it:
        done: list[tuple[str, int, list[str]]] = [
            ("shut", 5, ["Mill pipe", "Canal pipe", "Mill Lane", "Bridge pipe"]),
            ("open-place", 5, []),
            ("shut", 7, ["North Street", "Mill Lane", "Market Street", "Market link"]),
            (
                "shut",
                5,
                [
                    "Mill pipe",
                    "Canal pipe",
                    "Mill Lane",
                    "Bridge pipe",
                    "North Street",
                    "Market Street",
                    "Market link",
                ],
            ),
            ("open-place", 7, ["Mill pipe", "Canal pipe", "Mill Lane", "Bridge pipe"]),
            ("open-place", 5, []),
        ]
        for what, node, names in done:
            assert it.do(what=what, node=node)["value"] == str(without(*names)), (what, node)
            assert it.told("place?node=5")["shut"] == ("Mill pipe" in names)
            assert ("<title>Mill, shut</title>" in it.told("picture?near=")["svg"]) == (
                "Mill pipe" in names
            )


def test_any_case() -> None:
    """A new arc leads to a place whose name is typed without regard to case, also after an amount
    with more decimals than the table's."""
    with board(PIPES) as it:
        for head, capacity in ("HARBOUR", "5"), ("harbour", "5.25"), ("hÁrbour", "1"):
            told = it.do(what="add", tail=5, head=head, capacity=capacity, name="")
            assert told["steps"][-1]["text"].startswith(f"add Mill -> Harbour, {capacity}"), told


def test_large() -> None:
    """Of a large network those arcs are drawn that lie near the limit, or near a place."""
    with tempfile.TemporaryDirectory() as folder:
        table = Path(folder, "large.csv")
        table.write_text(
            "".join(
                f"S,P{n},{n % 7 + 1}\nP{n},Q{n % 40},{n % 5 + 1}\nQ{n % 40},T,{n % 3 + 1}\n"
                for n in range(400)
            )
        )
        with board(str(table)) as it:
            told = json.loads(it.ask(it.root + "picture?near=")[2])
            assert (
                len(told["arcs"]) == 300
            ), f"of a large network {len(told['arcs'])} arcs are drawn"
            node = json.loads(it.ask(it.root + "find?text=q39")[2])["found"][0]["node"]
            told = json.loads(it.ask(it.root + f"picture?near={node}")[2])
            beside = [arc for arc in told["arcs"] if "Q39" in (arc["tail"], arc["head"])]
            assert (len(told["arcs"]), len(beside)) == (
                300,
                20,
            ), f"near a place: {len(told['arcs'])}, {len(beside)}"


def test_picture() -> None:
    """Names are text in a picture, and its numbers are those of the table, at each step."""
    with tempfile.TemporaryDirectory() as folder:
        table = Path(folder, "odd.csv")
        quoted = ODD.replace('"', '""')
        table.write_text(
            f'from,to,litres,pipe\nA,"{quoted}",5,"{quoted}"\n"{quoted}",C,3,</text><script>\n'
        )
        with board(str(table)) as it:
            root = ElementTree.fromstring(json.loads(it.ask(it.root + "picture?near=")[2])["svg"])
            tags = {element.tag.rpartition("}")[2] for element in root.iter()}
            shown = [element.text for element in root.iter("{http://www.w3.org/2000/svg}text")]
            assert tags <= {
                "svg",
                "g",
                "title",
                "text",
                "path",
                "polygon",
                "ellipse",
            }, f"the tags of a picture: {tags}"
            is_there = (
                shown.count(ODD) == 2
                and "</text><script>" in shown
                and {"3/5", "3/3"} <= set(shown)
            )
            assert is_there, f"the texts of a picture: {shown}"
    with board(PIPES) as it:
        for arc in (10, 3, 14):
            it.do(what="close", arc=arc)
            told = json.loads(it.ask(it.root + "picture?near=")[2])
            root = ElementTree.fromstring(told["svg"])
            for one in told["arcs"]:
                group = next(
                    element
                    for element in root.iter()
                    if element.get("id") == f"arc-{one['number']}"
                )
                wanted = "closed" if one["closed"] else f"{one['flow']}/{one['capacity']}"
                looks = set((group.get("class") or "").split()) & {"cut", "full", "closed"}
                right = {
                    name
                    for name, key in (("cut", "limit"), ("full", "full"), ("closed", "closed"))
                    if one[key]
                }
                assert ([*group][-1].text, looks) == (
                    wanted,
                    right,
                ), f"arc {one['number']} in the picture: {looks}, {right}"
