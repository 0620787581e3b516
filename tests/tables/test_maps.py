"""Lines on a map: GeoJSON, WKT in a table and shapefiles. Places are where lines end."""

from __future__ import annotations

import json
import random
from collections.abc import Callable
from decimal import Decimal
from pathlib import Path
from typing import Any

import pytest
from client_shared import dmf
from desk_shared import run
from office_shared import greatest
from packages import load

shapefile: Any = load("shapefile")
# A square with a way across; the last line ends a little beside the corner.
LINES: list[tuple[str, int, list[list[tuple[Any, Any]]]]] = [
    ("P1", 50, [[(0, 0), (4, 1), (10, 0)]]),
    ("P2", 30, [[(0, 0), (0, 10)]]),
    ("P3", 40, [[(10, 0), (12, 5)], [(12, 5), (10, 10)]]),
    ("P4", 25, [[(0, 10), (10.01, 10)]]),
]
ENDS = [("0,0", "10,0"), ("0,0", "0,10"), ("10,0", "10,10"), ("0,10", "10.01,10")]
PLACES = "places are the ends of lines, and rows lead as lines were drawn: 8 ends are {} places; {}"
EXACT = PLACES.format(
    5, "only ends with the same coordinates are one place (--tolerance joins others)"
)
JOINED = PLACES.format(4, "ends that lie up to 0.05 apart are one place")


def geojson(path: Path, **more: Any) -> Path:
    features = []
    for name, most, parts in LINES:
        kind = "LineString" if len(parts) == 1 else "MultiLineString"
        points: Any = parts[0] if len(parts) == 1 else parts
        properties = {"id": name, "Q max (l/s)": most, "length": 1000.5, "built": None}
        features.append(
            {
                "type": "Feature",
                "properties": properties,
                "geometry": {"type": kind, "coordinates": points},
            }
        )
    told = ",\n".join(map(json.dumps, features))
    head = json.dumps({"type": "FeatureCollection", **more}).removesuffix("}")
    path.write_text(f'{head},\n"features": [\n{told}\n]}}\n')
    return path


def wkt(parts: list[list[tuple[Any, Any]]]) -> str:
    told = [", ".join(f"{x} {y}" for x, y in part) for part in parts]
    if len(told) == 1:
        return f"LineString ({told[0]})"
    return f"MULTILINESTRING (({'),('.join(told)}))"


def qgis(path: Path) -> Path:
    rows = [f'"{wkt(parts)}",{name},{most},1000.5,\n' for name, most, parts in LINES]
    path.write_text("WKT,id,Q max (l/s),length,built\n" + "".join(rows))
    return path


def shapes(path: Path, kind: int = 3) -> Path:
    with shapefile.Writer(str(path), shapeType=kind, encoding="utf-8") as writer:
        writer.field("ID", "C", 20)
        writer.field("QMAX_LPS", "N", 10, 1)
        writer.field("LENGTH", "N", 10, 2)
        for name, most, parts in LINES:
            if kind == 3:
                writer.line([[list(point) for point in part] for part in parts])
            else:
                writer.poly([[[0, 0], [0, 1], [1, 1], [0, 0]]])
            writer.record(f"Rohr {name} ä", most, 1000.5)
    return path.with_suffix(".shp")


WAYS: dict[str, Callable[[Path], Path]] = {"t.geojson": geojson, "t.csv": qgis, "t.shp": shapes}


@pytest.mark.parametrize("name", WAYS)
def test_lines(tmp_path: Path, name: str) -> None:
    """Ends that differ are two places; with a tolerance 65 reach the corner."""
    path = WAYS[name](tmp_path / name)
    with dmf.read_table(path, source="0,0", sink="10,10") as network:
        assert [(arc.tail, arc.head) for arc in network.arcs] == ENDS
        assert network.solve().value == 40 and EXACT in network.notes
        assert network.notes[0].startswith(
            "from 'start of the line', to 'end of the line', capacity 'Q"
        )
    with dmf.read_table(path, tolerance=0.05) as network:
        arcs = [(*ends, most) for ends, (_, most, _) in zip([*ENDS[:3], ("0,10", "10,10")], LINES)]
        assert [(it.tail, it.head, network.capacity(it)) for it in network.arcs] == arcs
        assert network.solve().value == greatest(arcs) == 65
        assert JOINED in network.notes
        assert "1 point was joined to another by the tolerance" in network.notes
        assert network.unit in ("l/s", "LPS")
        assert [it.key for it in network.arcs][0] in ("P1", "Rohr P1 ä")


def test_one_line(tmp_path: Path) -> None:
    """Many programs write all features in one line of the file; each is a row of its own."""
    path = geojson(tmp_path / "t.geojson")
    path.write_text(" ".join(path.read_text().split("\n")))
    with dmf.read_table(path, source="0,0", sink="10,10") as network:
        assert [(arc.tail, arc.head) for arc in network.arcs] == ENDS
        assert [arc.key for arc in network.arcs] == [name for name, _, _ in LINES]
        assert network.solve().value == 40


def test_a_map_for_the_page(tmp_path: Path) -> None:
    """The page puts the places where the map has them."""
    from dmf.tables.loader import TableOptions, load_tables

    for name, make in WAYS.items():
        path = make(tmp_path / name)
        plan = load_tables(TableOptions(), str(path), path.read_bytes())
        positions = plan.arcs.sheet.positions
        assert positions is not None
        assert positions.spots["10.01,10"] == (10.01, 10.0)
        assert set(positions.spots) == {"0,0", "10,0", "0,10", "10,10", "10.01,10"}
        assert positions.is_globe == (name == "t.geojson")
    path = geojson(
        tmp_path / "u.geojson", crs={"type": "name", "properties": {"name": "EPSG:25832"}}
    )
    plan = load_tables(TableOptions(), str(path), path.read_bytes())
    assert plan.arcs.sheet.positions is not None and not plan.arcs.sheet.positions.is_globe


def test_titles_that_say_the_places(tmp_path: Path) -> None:
    """Where columns have the ends, these are the places, and the line is a remark."""
    text = 'WKT,from,to,capacity\n"LINESTRING (0 0, 1 1)",A,B,5\n'
    (tmp_path / "t.csv").write_text(text)
    with dmf.read_table(tmp_path / "t.csv") as network:
        assert [(arc.tail, arc.head) for arc in network.arcs] == [("A", "B")]
        assert network.notes[0] == "from 'from', to 'to', capacity 'capacity'; kept: 'WKT'"
    # A date alone does not.
    (tmp_path / "t.csv").write_text(text.replace(",from,to", ",from,note"))
    with dmf.read_table(tmp_path / "t.csv") as network:
        assert [(arc.tail, arc.head) for arc in network.arcs] == [("0,0", "1,1")]


def test_the_capacity_is_asked_for(tmp_path: Path) -> None:
    (tmp_path / "t.csv").write_text('WKT,Length,Flow\n"LINESTRING (0 0, 1 1)",900,5\n')
    with pytest.raises(dmf.TableFault, match="which column is the capacity") as caught:
        dmf.read_table(tmp_path / "t.csv")
    told = str(caught.value)
    assert "columns={'capacity': 'Flow'}" in told and "start of the line" not in told
    with dmf.read_table(tmp_path / "t.csv", columns={"capacity": "Flow"}) as network:
        assert network.solve().value == 5


CELLS = [
    (
        "POLYGON ((0 0, 1 0, 1 1, 0 0))",
        "the geometry is a POLYGON, not a line; give the layer of lines",
    ),
    ("POINT (0 0)", "the geometry is a POINT, not a line; give the layer of lines"),
    ("LINESTRING EMPTY", "the geometry is a line without points"),
    ("LINESTRING (0 0)", "the geometry is a line with one point"),
    ("LINESTRING (0 0, nan 1)", "the geometry has a point that is not two numbers: nan 1"),
    ("LINESTRING (0 0, 1", "the geometry is a line without points"),
    ("", "the geometry is not a line in WKT, as in LINESTRING (0 0, 1 1)"),
    (
        "MULTILINESTRING ((0 0, 1 1), (2 2, 3 3))",
        "the geometry has 2 parts that do not follow each other; make a row of each part (in QGIS:"
        " Multipart to singleparts)",
    ),
]


@pytest.mark.parametrize(("cell", "said"), CELLS)
def test_rows_without_a_line(tmp_path: Path, cell: str, said: str) -> None:
    text = f'WKT,capacity\n"LINESTRING Z (0 0 5, 1 1 6)",5\n"{cell}",4\n'
    (tmp_path / "t.csv").write_text(text)
    with pytest.raises(dmf.TableFault) as caught:
        dmf.read_table(tmp_path / "t.csv")
    assert str(caught.value) == f"{tmp_path}/t.csv, line 3, column 'WKT': {said}"


GEOJSON_FAULTS = [
    (
        '"coordinates": [[0, 0], [0, 10]]',
        '"coordinates": [[0, 0], [0, NaN]]',
        ", line 4, column 'WKT': " "the geometry has a point that is not two numbers: 0 nan",
    ),
    (
        '"coordinates": [[0, 0], [0, 10]]',
        '"coordinates": [[0, 0], [0]]',
        ", line 4: the coordinates of " "the 'LineString' are not pairs of numbers",
    ),
    (
        '"type": "LineString", "coordinates": [[0, 0], [0, 10]]',
        '"type": "Polygon", "coordinates": []',
        ", line 4, column 'WKT': the geometry is a POLYGON, not a line; give the layer of lines",
    ),
    ("[[0, 0], [0, 10]]}}", "[[0, 0], [0, 10", ", line 7: the JSON is damaged: "),
]


@pytest.mark.parametrize(("old", "new", "said"), GEOJSON_FAULTS)
def test_faults_of_geojson(tmp_path: Path, old: str, new: str, said: str) -> None:
    path = geojson(tmp_path / "t.geojson")
    text = path.read_text()
    assert text.count(old) == 1, text
    path.write_text(text.replace(old, new))
    with pytest.raises(dmf.TableFault) as caught:
        dmf.read_table(path)
    assert str(caught.value).removeprefix(str(path)).startswith(said), caught.value


@pytest.mark.parametrize(("old", "new", "said"), GEOJSON_FAULTS)
def test_faults_of_geojson_in_one_line(tmp_path: Path, old: str, new: str, said: str) -> None:
    """A reader of the file finds the feature by its number and its name."""
    path = geojson(tmp_path / "t.geojson")
    path.write_text(path.read_text().replace(old, new).replace("\n", ""))
    with pytest.raises(dmf.TableFault) as caught:
        dmf.read_table(path)
    told = str(caught.value).removeprefix(str(path))
    if "damaged" in said:
        # The text ends where the list of the features does, of which the braces are not closed.
        assert told.startswith(", feature 2: the JSON is damaged: ")
        return
    assert told == f", feature 2 'P2'{said.removeprefix(', line 4')}"


def test_features_that_share_a_line(tmp_path: Path) -> None:
    """If some do, all are told by their numbers; also in what is told beside the answer."""
    path = geojson(tmp_path / "t.geojson")
    text = path.read_text()
    head, features = text.split('"features": [\n')
    first = features.split(",\n")[0]
    path.write_text(f'{head}"features": [{first}, {features}')
    with dmf.read_table(path, source="0,0", sink="10,10") as network:
        assert any("feature 2 'P1' as feature 1 'P1'" in it for it in network.notes)
    path.write_text(path.read_text().replace('"Q max (l/s)": 30', '"Q max (l/s)": null'))
    with pytest.raises(dmf.TableFault, match="geojson, feature 3 'P2', column 'Q max"):
        dmf.read_table(path)
    with dmf.read_table(path, source="0,0", sink="10,10", missing=0) as network:
        assert "missing capacities are read as 0: feature 3 'P2'" in network.notes


def test_geojson_that_is_cut(tmp_path: Path) -> None:
    path = geojson(tmp_path / "t.geojson")
    text = path.read_text()
    path.write_text(text[: text.index("P3")])
    with pytest.raises(dmf.TableFault, match="line 5: the JSON is damaged: "):
        dmf.read_table(path)
    path.write_text(text[: text.index("\n", text.index("P3"))])
    with pytest.raises(dmf.TableFault, match="line 5: the JSON is damaged: it ends in the middle"):
        dmf.read_table(path)
    path.write_text('{"type": "FeatureCollection"}')
    with pytest.raises(dmf.TableFault, match="a collection of features is expected"):
        dmf.read_table(path)


def test_files_of_a_shapefile(tmp_path: Path) -> None:
    """A file beside the .shp names it; a table alone is read as a table."""
    path = shapes(tmp_path / "t")
    for ending, said in (
        (".shx", "it is the index of a shapefile (.shx); give the .shp"),
        (".dbf", "it is the table of a shapefile (.dbf); give 't.shp'"),
    ):
        with pytest.raises(dmf.TableFault) as caught:
            dmf.read_table(path.with_suffix(ending))
        assert str(caught.value) == f"{path.with_suffix(ending)}: {said}"
    (tmp_path / "t.prj").write_text('PROJCS["x"]')
    with pytest.raises(dmf.TableFault, match="the projection of a shapefile"):
        dmf.read_table(tmp_path / "t.prj")
    (tmp_path / "t.dbf").rename(tmp_path / "u.dbf")
    with pytest.raises(dmf.TableFault, match="its table, 't.dbf', does not stand beside it"):
        dmf.read_table(path)
    with pytest.raises(dmf.TableFault, match="which column"):
        dmf.read_table(tmp_path / "u.dbf")
    (tmp_path / "u.dbf").rename(tmp_path / "t.dbf")
    data = path.read_bytes()
    path.write_bytes(data[: len(data) // 2])
    with pytest.raises(dmf.TableFault, match="t.shp: (the shapefile is damaged|it has)"):
        dmf.read_table(path)
    with pytest.raises(dmf.TableFault, match="line 2, column 'WKT': the geometry is a POLYGON"):
        dmf.read_table(shapes(tmp_path / "polygons", 5))


def test_a_dbase_table(tmp_path: Path) -> None:
    with shapefile.Writer(dbf=str(tmp_path / "t.dbf"), encoding="cp1252") as writer:
        for name in "VON", "NACH":
            writer.field(name, "C", 20)
        writer.field("KAPAZITAET", "N", 10, 2)
        writer.record("Köln", "Bonn", 12.5)
        writer.record("Bonn", "Trier", 7.25)
    with dmf.read_table(tmp_path / "t.dbf") as network:
        assert network.solve().value == Decimal("7.25")
        assert "Köln" in network.nodes
        assert any("is read as Windows-1252" in note for note in network.notes)


def test_a_package_that_is_missing(tmp_path: Path) -> None:
    """The message names the package of Debian."""
    path = shapes(tmp_path / "t")
    (tmp_path / "shapefile.py").write_text("raise ImportError\n")
    ran = run("dmf-plan", str(path), PYTHONPATH=str(tmp_path))
    told = (
        f"dmf-plan: {path}: a shapefile needs the package pyshp, which is not installed (pip "
        "install pyshp, or apt install python3-pyshp); or export the layer as GeoJSON\n"
    )
    assert (ran.returncode, ran.stderr) == (3, told)


@pytest.mark.parametrize("seed", range(20))
def test_generated_maps(tmp_path: Path, seed: int) -> None:
    """Places on a grid, whose lines end up to 0.01 beside them: networkx finds the same value."""
    rng = random.Random(seed)
    arcs, rows = [], []
    for number in range(rng.randint(3, 14)):
        tail, head = rng.sample([(x, y) for x in range(3) for y in range(3)], 2)
        most = rng.randint(1, 50)
        arcs.append((str(tail), str(head), most))
        ends = [
            (x + rng.uniform(-0.007, 0.007), y + rng.uniform(-0.007, 0.007))
            for x, y in (tail, head)
        ]
        rows.append(f'"{wkt([ends])}",N{number},{most}\n')
    (tmp_path / "t.csv").write_text("WKT,name,capacity\n" + "".join(rows))
    plain = "".join(f'"{tail}","{head}",{most}\n' for tail, head, most in arcs)
    (tmp_path / "p.csv").write_text("from,to,capacity\n" + plain)
    try:
        with dmf.read_table(tmp_path / "p.csv") as network:
            expected = network.solve().value
    except dmf.TableFault:
        with pytest.raises(dmf.TableFault):
            dmf.read_table(tmp_path / "t.csv", tolerance=0.05)
        return
    with dmf.read_table(tmp_path / "t.csv", tolerance=0.05) as network:
        assert network.solve().value == greatest(arcs) == expected


@pytest.mark.parametrize(
    "name, words, told",
    [
        (
            "t.csv",
            ["--velocity", "1.5"],
            "--velocity is for a network of EPANET, and this is a CSV file: leave it out",
        ),
        (
            "t.csv",
            ["--tanks", "none"],
            "--tanks is for a network of EPANET, and this is a CSV file: leave it out",
        ),
        (
            "t.geojson",
            ["--velocity", "2"],
            "--velocity is for a network of EPANET, and this is a GeoJSON file: leave it out",
        ),
        (
            "t.csv",
            ["--tolerance", "0.5"],
            "--tolerance is for lines on a map, and this has none: leave it out",
        ),
    ],
)
def test_settings_of_other_files(tmp_path: Path, name: str, words: list[str], told: str) -> None:
    """An option that a file of this kind does not read is refused, not passed over."""
    path = tmp_path / name
    if name == "t.geojson":
        geojson(path)
    else:
        path.write_text("from,to,capacity\ns,t,4\n")
    ran = run("dmf-plan", str(path), *words, typed="solve\n")
    assert (ran.returncode, ran.stdout, ran.stderr) == (3, "", f"dmf-plan: {path}: {told}\n")
    keyword = words[0].removeprefix("--")
    given: dict[str, Any] = {keyword: words[1]}
    with pytest.raises(dmf.TableFault) as caught:
        dmf.read_table(path, **given)
    assert told.replace(words[0], f"{keyword}=") in str(caught.value)
