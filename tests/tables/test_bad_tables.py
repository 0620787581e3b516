"""Odd and bad tables, one by one: each is refused at its place, or read rightly."""

from __future__ import annotations

import datetime
import importlib
import io
import re
import zipfile
from pathlib import Path
from typing import Any, Optional

import pytest
import town_table as town
from client_shared import dmf
from dmf.tables.loader import TableOptions, load_tables
from packages import load

openpyxl: Any = load("openpyxl")
NO_NUMBER = "is not a number; write one as 47.3 or 47,3"


def faults(data: bytes, path: str = "t") -> list[str]:
    """What is told of a table, without its file."""
    with pytest.raises(dmf.TableFault) as caught:
        load_tables(TableOptions(), path, data)
    begin = re.compile(f"{re.escape(path)}(#Arcs)?[:,] ")
    return [begin.sub("", line, count=1) for line in caught.value.lines()]


def rows(data: bytes) -> list[tuple[str, str, int]]:
    table = load_tables(TableOptions(), "t", data).arcs
    names = list(table.places)
    return [
        (names[tail - 1], names[head - 1], number)
        for tail, head, number in zip(table.tails, table.heads, table.amounts.numbers)
    ]


def workbook(*given: list[Any], **more: list[list[Any]]) -> bytes:
    book = openpyxl.Workbook()
    book.active.title = "Arcs"
    for row in given:
        book.active.append(row)
    for name, others in more.items():
        sheet = book.create_sheet(name)
        for row in others:
            sheet.append(row)
    data = io.BytesIO()
    book.save(data)
    return data.getvalue()


OLD = b"\xd0\xcf\x11\xe0\xa1\xb1\x1a\xe1" + bytes(600)


@pytest.mark.parametrize(
    ("data", "what"),
    [
        (b"\x1f\x8b\x08" + bytes(30), "a gzip file"),
        (OLD, "an Excel workbook of before 2007, or one with a password"),
        (b"%PDF-1.4 ..", "a PDF document"),
        (b"p min 3 2\nn 1 5\nn 3 -5\na 1 2 0 5 1\n", "a min-cost problem"),
        (b"c of today\np max 2 1\nn 1 s\n", "a max-flow problem"),
        (b"p sp 3 2\na 1 2 5\n", "a shortest-path problem"),
        (b"p edge 3 2\ne 1 2\n", "a problem of the DIMACS format"),
        (b"s 4\nf 1 2 4\n", "a solution"),
        (b"<!DOCTYPE html><html>", "a page of HTML or XML"),
        (b'{"arcs": []}', "a JSON file"),
        (b"\x89PNG\r\n", "a picture"),
        (b'<?xml version="1.0"?><gexf version="1">', "a GEXF file"),
        (b'<?xml version="1.0"?><kml xmlns="g">', "a KML file"),
    ],
)
def test_other_kinds(data: bytes, what: str) -> None:
    assert faults(data) == [f"it is {what}; a table is a CSV file, or a workbook (.xlsx or .ods)"]


def test_zips() -> None:
    def packed(**files: bytes) -> bytes:
        data = io.BytesIO()
        with zipfile.ZipFile(data, "w", zipfile.ZIP_DEFLATED) as archive:
            for name, content in files.items():
                archive.writestr(name.replace("_", "/"), content)
        return data.getvalue()

    assert faults(packed(a=b"A,B,3")) == [
        "it is a zip file; a table is a CSV file, or a workbook (.xlsx or .ods)"
    ]
    assert faults(packed(**{"word_document.xml": b""})) == [
        "it is a text document; a table is a CSV file, or a workbook (.xlsx or .ods)"
    ]
    assert "damaged" in faults(packed(**{"xl_workbook.xml": b"<x"}))[0]
    assert "damaged" in faults(workbook(["from", "to", "cap"])[:900])[0]


def test_a_bomb(monkeypatch: pytest.MonkeyPatch) -> None:
    """What a workbook unpacks to is judged before it is unpacked."""
    data = workbook(["from", "to", "cap"], *(["A", "B", 3] for _ in range(2000)))
    monkeypatch.setattr("dmf.tables.workbook.LARGEST", 5000)
    (told,) = faults(data)
    assert told.startswith("the workbook unpacks to ") and told.endswith(
        " bytes, and 5000 are the most"
    )


def test_all_faults_at_once() -> None:
    bad = ["A,,3", "A,B,x", "A,B,-1", "A,B", "A\x07,B,3", "A,B,2024-05-03", "A,B,3,4,5"]
    told = faults("\n".join(["from,to,cap,name", *bad, "A,B,3"]).encode())
    assert told == [
        "line 2, column 'to': no head",
        f"line 3, column 'cap': 'x' {NO_NUMBER}",
        "line 4, column 'cap': '-1' is below 0",
        "line 5, column 'cap': no capacity: the row has 2 columns",
        "line 6, column 'from': the tail 'A\\x07' has the character U+0007, which no name may have",
        "and 2 more",
    ]
    shorter = faults("\n".join(["from,to,cap,name", *bad[5:], "A,B,3"]).encode())
    assert shorter == [
        "line 2, column 'cap': '2024-05-03' is a date, not a number",
        "line 3: 5 columns, and 4 have titles",
    ]
    many = faults(("from,to,cap\n" + "A,B,x\n" * 57).encode())
    assert (len(many), many[4], many[5]) == (
        6,
        f"line 6, column 'cap': 'x' {NO_NUMBER}",
        "and 52 more",
    )


@pytest.mark.parametrize(
    ("text", "wanted"),
    [
        ("from,to,cap\nA,B,1\u00a0200\n", [("A", "B", 1200)]),
        ("from,to,cap\nA,B,\u0661\u0662\n", [("A", "B", 12)]),
        ("from,to,cap\nA,B,3\nfrom,to,cap\nB,C,4\n", [("A", "B", 3), ("B", "C", 4)]),
        ("\ufefffrom,to,cap\nA,B,3\n\ufeffA,C,4\n", [("A", "B", 3), ("A", "C", 4)]),
        ("cap,to,from\n3,B,A\n", [("A", "B", 3)]),
        ("3;A;B\n4;B;C\n", [("A", "B", 3), ("B", "C", 4)]),
        ("Kapazit\xe4t;Ziel;Quelle\n3;B;A\n", [("A", "B", 3)]),
        ("de,a,d\xe9bit\nA,B,3\n", [("A", "B", 3)]),
        ("desde\thasta\tcaudal\nA\tB\t3\n", [("A", "B", 3)]),
        ("from,to,cap," + "x" * 100_000 + "\nA,B,3," + "y" * 100_000 + "\n", [("A", "B", 3)]),
        ("start,A,5\nA,end,3\n", [("start", "A", 5), ("A", "end", 3)]),
        ("A,B,cap\nU,V,3\n", [("U", "V", 3)]),
        ("tail,head,capacity,supply\nA,B,3,\nA,,,9\n", [("A", "B", 3)]),
    ],
)
def test_read_rightly(text: str, wanted: list[tuple[str, str, int]]) -> None:
    assert rows(text.encode()) == wanted


@pytest.mark.parametrize(
    ("text", "told"),
    [
        ("from,to,x,y\nA,B,,1\nA,C,,2\n", "line 1: which column is the capacity?"),
        ("id,weight,length\n1,2,3\n", "line 1: which column is the "),
        ("from,to,cap\nA,B," + "9" * 1_000_000, "line 2, column 'cap': '999"),
        (
            "from,to,cap\nA," + "b" * 1_000_000 + ",3\n",
            "line 2, column 'to': the head has 1000000 characters",
        ),
        (
            "von;nach;Kapazit\xe4t;Kapazit\xe4t\nA;B;3;4\n",
            "line 1: which column is the capacity? More than one title says it",
        ),
        (
            "von;von;nach;Kap\nA;B;C;3\n",
            (
                "line 1: which column has the places where rows begin (from)? 2 columns have the"
                " title 'von'"
            ),
        ),
        (
            "von;nach;Pumpen\nA;B;3 l/s\nB;C;4 m3/h\nB;D;5\n",
            "line 3, column 'Pumpen': a capacity has the unit 'm3/h', and line 2 has 'l/s'",
        ),
        (
            "von;nach;Pumpen\nA;B;3 l/s\nB;C;4\n",
            "line 3, column 'Pumpen': a capacity has no unit, and line 2 has 'l/s'",
        ),
        (
            "from,to,cap\nA,B,=1+2\n",
            "line 2, column 'cap': '=1+2' is a formula",
        ),
        (
            "von;nach;kap\nA;B;3. Mai 2024\n",
            "line 2, column 'kap': '3. Mai 2024' is a date",
        ),
        ("von;nach;kap\nA;B;-3,5\n", "line 2, column 'kap': '-3,5' is below 0"),
        ("from,to,cap\nA,B,inf\n", "line 2, column 'cap': 'inf' is not a number"),
    ],
)
def test_refused(text: str, told: str) -> None:
    assert faults(text.encode())[0].startswith(told)


@pytest.mark.parametrize(
    ("title", "cells", "unit"),
    [
        ("Kap", ["3", "4"], ""),
        ("Kap", ["3 l/s", "4 l/s"], "l/s"),
        ("Pumpen", ["3 l/s", "4 l/s"], "l/s"),
        ("Pumpen", ["3", "4"], "Pumpen"),
        ("Pumpen", ["3 Pumpen", "4"], "Pumpen"),
        ("Kap (m\xb3/h)", ["3 m3/h", "4 m^3 / h"], "m\xb3/h"),
        ("Kap in l/s", ["3", "4 l/s"], "l/s"),
    ],
)
def test_units(title: str, cells: list[str], unit: str) -> None:
    """A unit that the title names, or the cells; a word in the title counts where neither does."""
    data = f"von;nach;{title}\nA;B;{cells[0]}\nB;C;{cells[1]}\n".encode()
    amounts = load_tables(TableOptions(), "t", data).arcs.amounts
    assert (amounts.unit, [*amounts.numbers]) == (unit, [3, 4])


def test_numbers_for_names_are_told() -> None:
    """A fourth column with a title that says nothing is read as names, also where these are
    numbers, and that is told."""
    notes = [
        load_tables(TableOptions(), "t", f"von;nach;Menge;Lkw\nA;B;3;{cell}\n".encode()).notes
        for cell in ("4", "blau")
    ]
    assert notes == [["from 'von', to 'nach', capacity 'Menge', name 'Lkw'"]] * 2


def test_workbooks() -> None:
    head = ["from", "to", "cap"]
    assert rows(workbook(head, ["A", "B", 3.5], ["A", "C", 0.1 + 0.2], ["C", "B", "1e3"])) == [
        ("A", "B", 35),
        ("A", "C", 3),
        ("C", "B", 10_000),
    ]
    assert faults(workbook(head, ["A", "B", datetime.datetime(2024, 5, 3)])) == [
        "line 2, column 'cap': '2024-05-03' is a date, not a number"
    ]
    assert faults(workbook(head, ["A", "B", True])) == [f"line 2, column 'cap': 'TRUE' {NO_NUMBER}"]
    assert faults(workbook(head, ["A", "B", -3])) == ["line 2, column 'cap': '-3' is below 0"]
    # A formula without what it gave, and the rest of a merged cell, are empty.
    assert faults(workbook(head, ["A", "B", "=1+2"], [None, "C", 3])) == [
        (
            "line 2, column 'cap': no capacity. Give --missing 0 to read such cells as 0, or"
            " --missing unlimited to read them as without a limit"
        ),
        "line 3, column 'from': no tail",
    ]
    assert faults(workbook()) == ["no sheet of the workbook has a cell"]
    assert (
        "which sheet is it? Name one after the file, as in t#Arcs; the sheets are 'Arcs', 'More'"
        in faults(workbook(head, More=[head]))[0]
    )
    assert faults(workbook(head), "t#Rohre") == [
        "t: no sheet is called 'Rohre'; the sheets are 'Arcs'"
    ]


def test_missing_packages(tmp_path: Path, monkeypatch: pytest.MonkeyPatch) -> None:
    load_module = importlib.import_module

    def missing(name: str, package: Optional[str] = None) -> Any:
        if name.startswith("odf"):
            raise ImportError(name=name)
        return load_module(name, package)

    monkeypatch.setattr("dmf.tables.workbook.importlib.import_module", missing)
    town.save_ods(tmp_path / "net.ods")
    (told,) = faults((tmp_path / "net.ods").read_bytes())
    assert told.startswith(
        "a workbook (.ods) needs the package odfpy, which is not installed (pip install odfpy, or "
        "apt "
        "install python3-odf)"
    )


def test_a_path_that_is_not_there(tmp_path: Path) -> None:
    with pytest.raises(FileNotFoundError):
        dmf.read_table(tmp_path / "none.csv")
    (tmp_path / "t.csv").write_text("A,B,3\n")
    with pytest.raises(FileNotFoundError):
        dmf.read_table(tmp_path / "t.csv", places=tmp_path / "none.csv")


@pytest.mark.parametrize(
    "option, instead",
    [("sources", "source"), ("sinks", "sink"), ("node_limits", "limits"), ("places", "limits")],
)
def test_places_in_place_of_a_path(option: str, instead: str) -> None:
    given: dict[str, Any] = {option: ["Mill"]}
    with pytest.raises(
        TypeError, match=f"expected the path of a table of places, not .*`{instead}`"
    ):
        dmf.read_table("pipes.csv", **given)
