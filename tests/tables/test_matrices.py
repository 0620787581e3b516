"""Matrices as offices have them, with rows and columns of needs, supplies, limits, units and
totals: each is read as a person reads it, its value is that of a network that networkx solves, and
what may as well be a place is asked for. None is read in another way."""

from __future__ import annotations

from decimal import Decimal
from pathlib import Path
from typing import Any

import pytest
from client_shared import dmf
from desk_shared import run
from dmf.tables.csv_file import csv_sheet
from dmf.tables.loader import TableOptions, subject_of
from dmf.tables.table_file import ReadOptions
from matrix_sheets import ASKED_MATRICES, MATRICES, Matrix
from packages import load

networkx: Any = load("networkx")
openpyxl: Any = load("openpyxl")
OFFICE = Path(__file__).with_name("office")
ALL = [(name, at) for name, sheets in MATRICES.items() for at in range(len(sheets))]


def greatest(sheet: Matrix) -> Decimal:
    """The greatest value, by networkx in tenths."""

    def tenths(most: Any) -> int:
        return 10**6 if most is None else int(10 * Decimal(most))

    graph = networkx.DiGraph()
    for tail, head, most in sheet.arcs:
        graph.add_edge((tail, "out"), (head, "in"), capacity=tenths(most))
    for place in {end for arc in sheet.arcs for end in arc[:2]}:
        graph.add_edge((place, "in"), (place, "out"), capacity=tenths(sheet.lets.get(place)))
    for place, most in sheet.gives.items():
        graph.add_edge("s", (place, "in"), capacity=tenths(most))
    for place, most in sheet.takes.items():
        graph.add_edge((place, "out"), "t", capacity=tenths(most))
    return Decimal(networkx.maximum_flow_value(graph, "s", "t")) / 10


def judge(network: Any, sheet: Matrix) -> None:
    """Sees to it that a network is what a person sees in a sheet."""
    rows = [(arc.tail, arc.head, Decimal(network.capacity(arc))) for arc in network.arcs]
    assert rows == [(tail, head, Decimal(most)) for tail, head, most in sheet.arcs]
    assert network.solve().value == greatest(sheet) == Decimal(sheet.value)


@pytest.mark.parametrize("name, at", ALL)
def test_read(name: str, at: int) -> None:
    sheet = MATRICES[name][at]
    with dmf.read_table(OFFICE / name, **sheet.given) as network:
        told = "\n".join(network.notes)
        assert [it for it in (sheet.told, *sheet.notes) if it not in told] == [], told
        judge(network, sheet)


@pytest.mark.parametrize("name", sorted(MATRICES))
def test_as_workbooks(tmp_path: Path, name: str) -> None:
    """The same sheets in a workbook, whose cells are numbers where they can be."""
    book = openpyxl.Workbook()
    for rows in csv_sheet((OFFICE / name).read_bytes(), name, None, 3).read():
        for line, row in zip(*rows):
            for column, cell in enumerate(row, 1):
                value = float(cell.replace(",", ".")) if cell[:1].isdigit() else cell or None
                book.active.cell(line, column, value)
    book.save(tmp_path / "t.xlsx")
    sheet = MATRICES[name][0]
    with dmf.read_table(tmp_path / "t.xlsx", **sheet.given) as network:
        judge(network, sheet)


@pytest.mark.parametrize("name", ASKED_MATRICES)
def test_asked(name: str) -> None:
    path = OFFICE / name
    told = told_of(path.read_text(encoding="utf-8"))
    assert [it for it in ASKED_MATRICES[name].said if it not in told] == [], told


def told_of(text: str, **given: Any) -> str:
    """What a tool tells of a matrix that it refuses."""
    with pytest.raises(dmf.TableFault) as caught:
        subject_of(TableOptions(ReadOptions(**given)), "t.csv", text.encode())
    return str(caught.value).removeprefix("t.csv")


def read_text(folder: Path, text: str, **given: Any) -> Any:
    (folder / "t.csv").write_text(text, encoding="utf-8")
    return dmf.read_table(folder / "t.csv", **given)


# Words of the four languages: needs, supplies and limits.
WORDS = [
    ("Demand", "Supply", "Capacity"),
    ("Needs", "Supplies", "Limit"),
    ("Total demand", "Total supply", "Max. flow"),
    ("Required", "Supply (t)", "Capacity (t)"),
    ("Bedarf", "Angebot", "Kapazität"),
    ("Nachfrage", "Einspeisung", "Grenzwert"),
    ("Besoin", "Offre", "Capacité"),
    ("Demande", "Apport", "Limite"),
    ("Demanda", "Oferta", "Capacidad"),
    ("Necesidad", "Suministro", "Límite"),
]


@pytest.mark.parametrize("need, supply, limit", WORDS)
def test_words(tmp_path: Path, need: str, supply: str, limit: str) -> None:
    """As rows and as columns, also above the titles and left of the names: of 9 that can go from A
    to B, 4 do for each reason alone."""
    row, column, left = "A,9\n{},4\n", "A,9,4\n", "4,A,9\n"
    above = "{},4\nfrom\\to,B\nA,9\n"
    texts: dict[str, list[tuple[str, dict[str, str]]]] = {
        need: [
            (f"from\\to,B\n{row}".format(need), {"source": "A"}),
            (above.format(need), {"source": "A"}),
            (f"{need},from\\to,B\n,A,9\n4,B,\n", {}),
        ],
        supply: [
            (f"from\\to,B,{supply}\n{column}", {"sink": "B"}),
            (f"{supply},from\\to,B\n{left}", {"sink": "B"}),
        ],
        limit: [
            (f"from\\to,B\n{row}".format(limit), {}),
            (above.format(limit), {}),
            (f"from\\to,B,{limit}\n{column}", {}),
            (f"{limit},from\\to,B\n{left}", {}),
        ],
    }
    texts[need].append((f"from\\to,B,{need}\nA,9,\nB,,4\n", {}))
    texts[supply].append((f"from\\to,B,A\n{supply},,4\nA,9,\n", {}))
    for word, sheets in texts.items():
        for text, given in sheets:
            with read_text(tmp_path, text, **given) as network:
                assert network.solve().value == 4, text
                assert f"'{word}'" in network.notes[0]


def test_places_that_have_such_names(tmp_path: Path) -> None:
    """A place that a row and a column have is one, and so is one that an option names."""
    text = "from\\to,Stock,Sink\nLake,7,\nStock,,4\n"
    with read_text(tmp_path, text) as network:
        assert network.solve().value == 4 and "2 other columns" in network.notes[0]
    text = "from\\to,Town\nLake,7\nDemand,4\n"
    with read_text(tmp_path, text, source=["Lake", "Demand"]) as network:
        assert network.solve().value == 11
    with read_text(tmp_path, text, source={"Lake": 2, "Demand": 3}) as network:
        assert network.solve().value == 5


def test_all_questions_at_once() -> None:
    text = "from\\to,B,C,Stock\nA,1,2,3\nB,,4,5\nOrders,1,2,3\nMean,1,2,3\n"
    told = told_of(text).splitlines()
    assert [line.partition(" may be")[0] for line in told] == [
        ", line 1, column 'Stock': 'Stock'",
        "t.csv, line 4, column 'from\\\\to': 'Orders'",
        "t.csv, line 5, column 'from\\\\to': 'Mean'",
    ]


# Titles of the four languages that are hardly those of places.
NO_PLACES = """Staff per day|Personal|Effectif|Personas por turno|Avg.|Ø|Schnitt pro Tag|Moyenne
Media|Min|Std dev|Standardabweichung|Écart|Desviación|per day|pro Woche|par jour|por día|Hours
Stunden|Heures|Horas|Remarks|Anmerkung|Commentaire|Observaciones|Target|Soll|Ist|Difference|Saldo
Reserve|Priority|Rang|No.|Nr.""".replace(
    "\n", "|"
).split(
    "|"
)


@pytest.mark.parametrize("name", NO_PLACES)
def test_titles_that_are_hardly_places(name: str) -> None:
    """As columns and as rows, also above the titles, where numbers of columns are left out."""
    below = "from\\to,B,C\nA,9,8\n"
    for text in f"from\\to,B,C,{name}\nA,9,8,3\nD,4,2,1\n", f"{below}{name},4,2\n":
        told = told_of(text)
        assert f"'{name}' may be a place, or say" in told and f"--ignore '{name}'" in told
    if name not in ("No.", "Nr."):
        told = told_of(f"{name},4,2\n{below}")
        assert f"'{name}' stands above the titles, and has numbers: give --needs" in told


@pytest.mark.parametrize("name", ["Target 1", "Day 1", "Reserve 12", "Row A", "Station 3"])
def test_numbered_places(tmp_path: Path, name: str) -> None:
    with read_text(tmp_path, f"from\\to,{name}\nA,9\nB,4\n", source=["A", "B"]) as network:
        assert network.solve().value == 13


@pytest.mark.parametrize("name", ["Needed", "Required per day", "Staff needed", "erforderlich"])
def test_titles_of_needs(tmp_path: Path, name: str) -> None:
    for text in f"{name},4\nfrom\\to,B\nA,9\n", f"from\\to,B\nA,9\n{name},4\n":
        with read_text(tmp_path, text, source="A") as network:
            assert network.solve().value == 4


@pytest.mark.parametrize("name", ["Σ", "∑", "Grand total", "Sous-total", "Zeilensumme"])
def test_titles_of_totals(tmp_path: Path, name: str) -> None:
    with read_text(tmp_path, f"from\\to,B,{name}\nA,9,9\n{name},9,9\n") as network:
        assert network.solve().value == 9 and f"the column '{name}'" in network.notes[1]


@pytest.mark.parametrize("third, what", [("9;14;5", "sum"), ("3;2;2,5", "least"), ("5;5;5", "")])
@pytest.mark.parametrize("is_row", [False, True])
def test_cells_of_no_place(third: str, what: str, is_row: bool) -> None:
    """A title that no list has is asked for if its cells say that it is no place; otherwise it
    is one."""
    rows = [["from\\to", "B", "C", "X"], ["A", "3", "6"], ["D", "12", "2"], ["E", "2,5", "2,5"]]
    for row, cell in zip(rows[1:], third.split(";")):
        row.append(cell)
    rows = [list(column) for column in zip(*rows)] if is_row else rows
    text = "\n".join(map(";".join, rows)) + "\n"
    option = "source" if is_row else "sink"
    if what:
        assert f"each of its cells is the {what} of the others in its" in told_of(text)
        assert f"--{option} 'X' if it is a place" in told_of(text)
    source, sink = ("BCX", "ADE") if is_row else ("ADE", "BCX")
    subject_of(TableOptions(source=[*source], sink=[*sink]), "t.csv", text.encode())


@pytest.mark.parametrize("cells", ["4.5;7;3", "3;4.7;2"])
def test_means(cells: str) -> None:
    """Also a mean that is rounded, in which empty cells count as 0."""
    rows = ["A,3,6,,{}", "D,12,2,,{}", "E,2,4,,{}"]
    text = "\n".join(row.format(cell) for row, cell in zip(rows, cells.split(";")))
    assert "is the mean of" in told_of(f"from\\to,B,C,F,X\n{text}\n")


def test_equal_cells_ask_nothing(tmp_path: Path) -> None:
    """Where all cells are the same, a place looks like a mean."""
    ends = {"source": [*"AD"], "sink": [*"BC"]}
    with read_text(tmp_path, "from\\to,B,C\nA,5,5\nD,5,5\n", **ends) as network:
        assert network.solve().value == 20


@pytest.mark.parametrize(
    "above, value", [("20,40", 60), ("20 t,40 t", 60), ("20,x", 65), ("x,x", 75), ("20,", None)]
)
def test_amounts_above_titles(tmp_path: Path, above: str, value: int | None) -> None:
    """With units, and without limits. What arrives is at most 30 at B and 45 at C, 20 from A and 25
    from D."""
    text = f"Demand,{above}\nfrom\\to,B,C\nA,30,20\nD,,25\n"
    if value is None:
        assert "'Demand' stands above the titles" in told_of(text)
        return
    with read_text(tmp_path, text, source=["A", "D"]) as network:
        assert network.solve().value == value


def test_faults_above_titles() -> None:
    """What is no amount has its cell; a title of several columns is left out."""
    below = "from\\to,B,C\nA,1,2\n"
    told = told_of(f"Demand,50%,60%\n{below}")
    assert "line 1, column 'B': '50%' is not a number" in told and "column 'C': '60%'" in told
    ends = TableOptions(source=["A"], sink=["B", "C"])
    notes = subject_of(ends, "t.csv", f"Demand,Towns,\n{below}".encode()).notes
    assert "what stands above is left out: 'Demand'" in notes[1]


def test_numbers_above_titles() -> None:
    """One number of several, and numbers that nobody named, are asked for; a day is left out."""
    below = "from\\to,B,C\nA,1,2\n"
    assert "'Total demand' stands above the titles" in told_of(f"Total demand,3\n{below}")
    assert "move it below the titles if that is what places let through" in told_of(
        f"Max. flow,3\n{below}"
    )
    assert "line 1: numbers stand above the titles, and nothing says" in told_of(f",3,4\n{below}")
    assert "'Demand' stands above the titles" in told_of(f"Demand,3,4,7\n{below}")
    assert "both say what places take" in told_of(f"Demand,3,4\n{below}Demand,3,4\n")


@pytest.mark.parametrize(
    "text, told",
    [
        ("from\\to,B,C\nA,1,2\nDemand,3,4\nBedarf,3,4\n", "both say what places take: leave one"),
        ("from\\to,B,C\nA,1,old\n", "line 2, column 'C': 'old' is not a number"),
        ("from\\to,B,C\nA,1,2\nDemand,3,old\n", "line 3, column 'C': 'old' is not a number"),
        ("from\\to,B,C\nA,1,2\nCapacity,3,x\n", "line 3, column 'C': 'x' is not a number"),
        ("from\\to,B,C\n,l/s,t/d\nA,1,2\n", "the columns have several units: 'l/s' and 't/d'"),
        ("from\\to,B,C\nA,1,2\nDemand,-3,4\n", "'-3' is below 0"),
    ],
)
def test_refused(text: str, told: str) -> None:
    assert told in told_of(text), told_of(text)


@pytest.mark.parametrize(
    "given, told",
    [
        ({"needs": "Orders"}, "no row and no column of the matrix is called 'Orders'"),
        ({"ignored": ["Orders"]}, "no row and no column of the matrix is called 'Orders'"),
        ({"daily": "1"}, "--daily is for rosters"),
    ],
)
def test_options_that_do_not_fit(given: Any, told: str) -> None:
    assert told in told_of("from\\to,B,C\nA,1,2\n", **given)


def test_python_names_its_keywords(tmp_path: Path) -> None:
    with pytest.raises(dmf.TableFault) as caught:
        read_text(tmp_path, "from\\to,B\nA,1\nOrders,3\n")
    assert "give needs='Orders' if it says that, ignore=['Orders'] to leave it out, or" in str(
        caught.value
    )
    assert str(caught.value).endswith("source='Orders' if it is a place")


def test_by_the_tools() -> None:
    """The needs are met, or told as short."""
    path = str(OFFICE / "matrix-demand.csv")
    ran = run("dmf-plan", path, "--matrix", "--source", "Lake", typed="solve\nplaces\n")
    assert ran.stdout.startswith("value 75") and ran.stdout.endswith("all demands are met\n")
    ran = run("dmf-plan", str(OFFICE / "matrix-bedarf.csv"), typed="solve\nplaces\n")
    assert ran.stdout.splitlines()[-1] == "short by 5 l/s: Stadt (65 of 70)"
    ran = run("dmf-problem", "--table", path, "--matrix", "--source", "Lake")
    assert ran.returncode == 0 and "demands from the row 'Demand' (line 5)" in ran.stderr
    assert "inner node" in ran.stdout
