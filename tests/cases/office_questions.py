"""Sheets as offices have them that leave something open: what is asked, what is answered, and the
value then."""

from __future__ import annotations

from office_readings import NO_TOWN, VALLEY, Arcs, Asked

LENGTHS: Arcs = [
    (tail, head, length) for (tail, head, _), length in zip(VALLEY, [1200, 800, 900, 650, 300])
]
WHICH = "which column is the capacity?"
ASKED: dict[str, Asked] = {
    "length-flow.csv": Asked(
        [WHICH, "--capacity Length", "as in 1200, 800", "--capacity Flow", "as in 50, 30"],
        {"columns": {"capacity": "Flow"}},
    ),
    "trucks.csv": Asked(
        [
            WHICH,
            "--capacity 'Distance (km)'",
            "as in 1200",
            "--capacity 'Trucks per day'",
            "as in 50",
        ],
        {"columns": {"capacity": "Trucks per day"}},
    ),
    # What a spreadsheet makes of 5.3 and 7.3; and years.
    "tag-und-monat.csv": Asked(
        [
            "line 2, column 'Kapazität': '05. Mrz' is a date, not a number",
            "line 3, column 'Kapazität': '07. Mrz' is a date, not a number",
        ]
    ),
    "built.csv": Asked([WHICH, "--capacity Built  as in 2001, 1999"]),
    "normal-peak.csv": Asked(
        [WHICH, "--capacity Normal", "--capacity Peak"], {"columns": {"capacity": "Peak"}}
    ),
    "capacity-normal-peak.csv": Asked(
        [WHICH, "--capacity 'Capacity normal'", "--capacity 'Capacity peak'"],
        {"columns": {"capacity": "Capacity peak"}},
    ),
    "existing-design.csv": Asked(
        [WHICH, "--capacity 'Existing capacity (MGD)'", "--capacity 'Design capacity (MGD)'"],
        {"columns": {"capacity": "Existing capacity (MGD)"}},
    ),
    "two-units.csv": Asked(
        [WHICH, "--capacity 'Capacity (l/s)'", "--capacity 'Capacity (m³/h)'"],
        {"columns": {"capacity": "Capacity (l/s)"}},
    ),
    "no-titles-two-numbers.csv": Asked(
        [WHICH, "--capacity 'column 3'", "--capacity 'column 4'"],
        {"columns": {"capacity": "column 4"}},
    ),
    "diameter-length.csv": Asked(
        [WHICH, "--capacity 'Diameter (mm)'", "--capacity 'Length (m)'"],
        {"columns": {"capacity": "Length (m)"}},
        LENGTHS,
    ),
    "vollfuellung.csv": Asked(
        [WHICH, "--capacity 'Gefälle ‰'", "--capacity 'Vollfüllung Q'"],
        {"columns": {"capacity": "Vollfüllung Q"}},
    ),
    "weight-other.csv": Asked(
        [WHICH, "--capacity weight", "--capacity lanes"], {"columns": {"capacity": "lanes"}}
    ),
    "not-the-sum.csv": Asked(["line 7, column 'From': no tail", "line 7, column 'To': no head"]),
    "lost-row.csv": Asked(["line 7, column 'To': no head"]),
    "sections.csv": Asked(["line 2, column 'To': no head", "line 5, column 'To': no head"]),
    "status-half-blank.csv": Asked(
        ["line 4, column 'Status': an empty cell does not say whether the row is open or closed"],
        {"ignore": ["Status"]},
    ),
    "status-planned.csv": Asked(
        ["line 4, column 'Status': 'planned' does not say whether the row is open or closed"],
        {"ignore": ["Status"]},
    ),
    "compass.csv": Asked(
        ["line 2, column 'Direction': 'N' does not say which way the row leads"],
        {"ignore": ["Direction"]},
        [*VALLEY[:4], ("Hill", "Mill", 10)],
    ),
    "missing.csv": Asked(
        ["lines 4 and 6, column 'Q max': no capacity", "--missing 0", "--missing unlimited"],
        {"missing": "0"},
        NO_TOWN,
    ),
    "not-available.csv": Asked(
        ["lines 4 and 6, column 'Q max': 'n/a' and '-' are not numbers", "--missing 0"],
        {"missing": "0"},
        NO_TOWN,
    ),
    "keine-angabe.csv": Asked(
        ["lines 3 and 6, column 'Kapazität': 'k. A.' and '?' are not numbers", "--missing 0"],
        {"missing": "0"},
        [VALLEY[0], ("Lake", "Hill", 0), *VALLEY[2:4], ("Mill", "Hill", 0)],
    ),
    "thousands.csv": Asked(
        ["'50,200' may be 50200 with a decimal point or 50.2 with a decimal comma", "--decimal"],
        {"decimal": "."},
        [(tail, head, 1000 * most + 200) for tail, head, most in VALLEY],
    ),
    "three-decimals.csv": Asked(
        ["'1.234' may be 1.234 with a decimal point or 1234 with a decimal comma"],
        {"decimal": "."},
        [
            ("Lake", "Mill", "1.234"),
            ("Lake", "Hill", "2.345"),
            ("Mill", "Town", 850),
            ("Hill", "Town", "3.456"),
            ("Mill", "Hill", 90),
        ],
    ),
    "matrix-without-corner.csv": Asked(
        [WHICH, "--matrix"],
        {"matrix": True},
        [VALLEY[0], VALLEY[1], VALLEY[4], VALLEY[2], VALLEY[3]],
    ),
    "tank.inp": Asked(
        ["how fast does water flow at most?", "(in LPS)", "--velocity 1.5"],
        {"velocity": 1.5, "tanks": "none"},
        [
            ("Lake", "Mill", "73.631"),
            ("Mill", "Lake", "73.631"),
            ("Lake", "Hill", "47.124"),
            ("Hill", "Lake", "47.124"),
            ("Mill", "Town", "47.124"),
            ("Town", "Mill", "47.124"),
            ("Hill", "Town", "26.507"),
            ("Town", "Hill", "26.507"),
            ("Mill", "Hill", "26.507"),
            ("Hill", "Mill", "26.507"),
            ("Tower", "Hill", "26.507"),
            ("Hill", "Tower", "26.507"),
        ],
    ),
    "polygon.geojson": Asked(
        ["line 10, column 'WKT': the geometry is a POLYGON, not a line; give the layer of lines"]
    ),
    "net.geojson": Asked(["the file has no feature"]),
    "net.shx": Asked(["it is the index of a shapefile (.shx); give the .shp"]),
    "net.shp": Asked(["its table, 'net.dbf', does not stand beside it"]),
}
