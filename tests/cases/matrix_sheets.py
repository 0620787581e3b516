"""The matrices in `office/` that have rows and columns beside their places: how a person reads
each, and what a reader must tell, or ask."""

from __future__ import annotations

from collections.abc import Mapping, Sequence
from dataclasses import dataclass, field
from typing import Any

from office_readings import Arcs, Asked

# By the place, what it gives, takes or lets through; None is no limit.
Amounts = Mapping[str, Any]


@dataclass(frozen=True)
class Matrix:
    """A matrix that is read: what is told of what was taken for what, the arcs and what places
    give, take and let through, as a person sees them, the greatest value by hand, other lines that
    are told, and what options say."""

    told: str
    arcs: Arcs
    gives: Amounts
    takes: Amounts
    value: Any
    notes: Sequence[str] = ()
    lets: Amounts = field(default_factory=dict)
    given: Mapping[str, Any] = field(default_factory=dict)


def valley(lake: str, mill: str, hill: str, town: str, second: Any = 30) -> Arcs:
    """The valley, row by row."""
    return [
        (lake, mill, 50),
        (lake, hill, second),
        (mill, hill, 10),
        (mill, town, 40),
        (hill, town, 25),
    ]


# With the option that names the only source, and without.
NAMED_OR_FOUND: Sequence[tuple[Sequence[str], Mapping[str, Any]]] = [
    (["the source is 'Lake', the one place that nothing leads to"], {}),
    ([], {"source": "Lake"}),
]
LAGO: Sequence[Mapping[str, Any]] = [{}, {"source": ["Lago"]}]
FOUND_OR_ASKED: Sequence[Mapping[str, Any]] = [{}, {"matrix": True}]
ENGLISH = valley("Lake", "Mill", "Hill", "Town")
GERMAN = valley("See", "Mühle", "Berg", "Stadt")


def row_of_needs(name: str, line: int) -> list[Matrix]:
    """The answers about a matrix of the valley with a row that may be one of needs: it is, or it is
    left out."""
    return [
        Matrix(
            f"demands from the row '{name}' (line {line})",
            ENGLISH,
            {"Lake": None},
            {"Mill": 5, "Hill": 10, "Town": 60},
            75,
            given={"needs": name},
        ),
        Matrix(
            "to the titles of the 3 other columns; empty",
            ENGLISH,
            {"Lake": None},
            {"Town": None},
            65,
            [f"left out, as asked: the row '{name}' (line {line})"],
            given={"ignore": [name]},
        ),
    ]


MATRICES: dict[str, Sequence[Matrix]] = {
    # The Lake sends 75: 50 over the Mill, of which 5 stay, 40 go to the Town and 5 to the Hill.
    "matrix-demand.csv": [
        Matrix(
            (
                "a matrix: from 'from \\\\ to', to the titles of the 3 other columns, demands from"
                " the row 'Demand' (line 5); empty cells and 0 are no arcs"
            ),
            ENGLISH,
            {"Lake": None},
            {"Mill": 5, "Hill": 10, "Town": 60},
            75,
            notes,
            given=given,
        )
        for notes, given in NAMED_OR_FOUND
    ]
    # The Town alone takes 65.
    + [
        Matrix(
            "demands from the row 'Demand' (line 5)",
            ENGLISH,
            {"Lake": None},
            {"Town": None},
            65,
            ["the demands of the file are left out, since options name others"],
            given={"source": "Lake", "sink": "Town"},
        )
    ],
    # All that leaves the See arrives; the Stadt gets 65 of 70.
    "matrix-bedarf.csv": [
        Matrix(
            "to the titles of the 3 other columns, demands from the row 'Bedarf' (line 6); empty",
            valley("See", "Mühle", "Berg", "Stadt", "30.5"),
            {"See": None},
            {"Mühle": 5, "Berg": "10.5", "Stadt": 70},
            "80.5",
            ["line 2 has the units", "the source is 'See'"],
        )
    ],
    # The Ville gets 45 of 50, since no more lead there.
    "matrix-besoins.csv": [
        Matrix(
            "other columns, supplies from the column 'Offre', demands from the row 'Besoins' (line",
            [
                ("Lac", "Moulin", 50),
                ("Lac", "Ville", 30),
                ("Source haute", "Moulin", 20),
                ("Source haute", "Ville", 15),
            ],
            {"Lac": 60, "Source haute": 30},
            {"Moulin": 40, "Ville": 50},
            85,
        )
    ],
    "matrix-demanda.csv": [
        Matrix(
            "to the titles of the 3 other columns, demands from the column 'Demanda'; empty cells",
            valley("Lago", "Molino", "Cerro", "Pueblo"),
            {"Lago": None},
            {"Molino": 5, "Cerro": 10, "Pueblo": 60},
            75,
            ["totals are left out: the column 'Total'", "line 6 is a total, and is left out"],
            given=given,
        )
        for given in LAGO
    ],
    "matrix-transport.csv": [
        Matrix(
            "from column 1, to the titles of the 2 other columns, supplies from the column"
            " 'Supply', demands from the row 'Demand' (line 4)",
            [("Lake", "Town", 50), ("Lake", "Port", 30), ("Hill", "Port", 40)],
            {"Lake": 60, "Hill": 25},
            {"Town": 45, "Port": 40},
            85,
            given={"matrix": True},
        ),
        # The Lake alone sends 50 to the Town and 30 to the Port, which take 45 and 40.
        Matrix(
            "supplies from the column 'Supply'",
            [("Lake", "Town", 50), ("Lake", "Port", 30), ("Hill", "Port", 40)],
            {"Lake": None},
            {"Town": 45, "Port": 40},
            75,
            ["the supplies of the file are left out, since options name others"],
            given={"matrix": True, "source": "Lake"},
        ),
    ],
    "matrix-oferta.csv": [
        Matrix(
            "supplies from the column 'Oferta', demands from the row 'Necesidades' (line 4)",
            [("Lago", "Pueblo", 50), ("Lago", "Puerto", 30), ("Cerro", "Puerto", 40)],
            {"Lago": 60, "Cerro": 25},
            {"Pueblo": 45, "Puerto": 40},
            85,
        )
    ],
    "matrix-summe.csv": [
        Matrix(
            "a matrix: from 'von/nach', to the titles of the 3 other columns; empty cells and 0",
            GERMAN,
            {"See": None},
            {"Stadt": None},
            65,
            ["totals are left out: the column 'Summe'", "line 5 is a total, and is left out"],
        )
    ],
    "matrix-totals-differ.csv": [
        Matrix(
            "a matrix: from 'from\\\\to', to the titles of the 3 other columns; empty cells and 0",
            ENGLISH,
            {"Lake": None},
            {"Town": None},
            65,
            [
                "line 2: the column 'Total' says 81, and its other cells 80",
                "line 5 is a total, and is left out, though it says 66 below 'Town' and the other"
                " cells 65",
            ],
        )
    ],
    # 20 reach the Town over the Mill, and 15 over the Hill.
    "matrix-capacity.csv": [
        Matrix(
            "to the titles of the 3 other columns, limits from the row 'Capacity' (line 7); empty",
            ENGLISH,
            {"Lake": None},
            {"Town": None},
            35,
            [
                "the titles are in line 2; what stands above is left out: 'Pipes of the valley'",
                "line 3 has the units",
                "the titles stand once more, and are passed over: line 8",
            ],
            {"Mill": 20, "Hill": 15, "Town": 60},
        )
    ],
    # The same needs above the titles.
    "matrix-demand-above.csv": [
        Matrix(
            "to the titles of the 3 other columns, demands from the row 'Demand' (line 2); empty",
            ENGLISH,
            {"Lake": None},
            {"Mill": 5, "Hill": 10, "Town": 60},
            75,
            [
                "the titles are in line 3; what stands above is left out: 'Pipes of the valley'",
                *notes,
            ],
            given=given,
        )
        for notes, given in NAMED_OR_FOUND
    ],
    "matrix-offre-left.csv": [
        Matrix(
            "a matrix: from 'de / vers', to the titles of the 2 other columns, supplies from the"
            " column 'Offre', demands from the row 'Besoins' (line 1); empty",
            [
                ("Lac", "Moulin", 50),
                ("Lac", "Ville", 30),
                ("Source haute", "Moulin", 20),
                ("Source haute", "Ville", 15),
            ],
            {"Lac": 60, "Source haute": 30},
            {"Moulin": 40, "Ville": 50},
            85,
            given=given,
        )
        for given in FOUND_OR_ASKED
    ],
    "matrix-numbered.csv": [
        Matrix(
            "a matrix: from 'from \\\\ to', to the titles of the 3 other columns; empty cells",
            ENGLISH,
            {"Lake": None},
            {"Town": None},
            65,
            ["numbers of the rows are left out: the column 'No.'"],
        )
    ],
    # What asks without an option.
    "matrix-staff-above.csv": row_of_needs("Staff per day", 1),
    "matrix-kennwert.csv": [
        Matrix(
            "to the titles of the 3 other columns; empty",
            GERMAN,
            {"See": None},
            {"Stadt": None},
            65,
            ["left out, as asked: the column 'Kennwert', the column 'Belag'"],
            given={"ignore": ["Kennwert", "column 6"]},
        )
    ],
    "matrix-orders.csv": [
        *row_of_needs("Orders", 5),
        # As a place, it gives the Mill 5 more and the Hill 10, and the Town 60.
        Matrix(
            "to the titles of the 3 other columns; empty",
            [*ENGLISH, ("Orders", "Mill", 5), ("Orders", "Hill", 10), ("Orders", "Town", 60)],
            {"Lake": None, "Orders": None},
            {"Town": None},
            125,
            given={"source": ["Lake", "Orders"]},
        ),
    ],
    "matrix-stock.csv": [
        Matrix(
            "to the titles of the 3 other columns; empty",
            GERMAN,
            {"See": None},
            {"Stadt": None},
            65,
            ["left out, as asked: the column 'Stock'"],
            given={"ignore": ["Stock"]},
        ),
        Matrix(
            "to the titles of the 4 other columns; empty",
            [*GERMAN[:2], ("See", "Stock", 80), *GERMAN[2:]],
            {"See": None},
            {"Stadt": None, "Stock": None},
            145,
            given={"sink": ["Stadt", "Stock"]},
        ),
    ],
    "matrix-mean.csv": [
        Matrix(
            "to the titles of the 3 other columns; empty",
            ENGLISH,
            {"Lake": None},
            {"Town": None},
            65,
            ["left out, as asked: the row 'Mean' (line 5)"],
            given={"ignore": ["Mean"]},
        )
    ],
    # The Demand is a place that takes 5, 10 and 60, and gives nothing that counts.
    "matrix-demand-twice.csv": [
        Matrix(
            "to the titles of the 4 other columns; empty",
            [
                *ENGLISH[:4],
                ("Mill", "Demand", 5),
                ENGLISH[4],
                ("Hill", "Demand", 10),
                ("Town", "Demand", 60),
                ("Demand", "Mill", 5),
                ("Demand", "Hill", 10),
                ("Demand", "Town", 60),
            ],
            {"Lake": None},
            {"Demand": None},
            75,
            given={"source": "Lake", "sink": "Demand"},
        )
    ],
}
# What each of them says without an option.
ASKED_MATRICES: dict[str, Asked] = {
    "matrix-orders.csv": Asked(
        [
            "line 5, column 'from\\\\to': 'Orders' may be a place, or say what places take",
            "--needs 'Orders' if it says that, --ignore 'Orders' to leave it out, or"
            " --source 'Orders' if it is a place",
        ]
    ),
    "matrix-stock.csv": Asked(
        [
            "line 1, column 'Stock': 'Stock' may be a place, or say what places give",
            "give it the title 'supply' if it says that, --ignore 'Stock' to leave it out, or"
            " --sink 'Stock' if it is a place",
        ]
    ),
    "matrix-mean.csv": Asked(
        [
            "line 5, column 'from\\\\to': 'Mean' may be a place, or say something of places: give"
            " --ignore 'Mean' to leave it out, or --source 'Mean' if it is a place"
        ]
    ),
    "matrix-staff-above.csv": Asked(
        [
            "line 1: 'Staff per day' stands above the titles, and has numbers: give --needs 'Staff"
            " per day' if that is what places take, or --ignore 'Staff per day' to leave it out"
        ]
    ),
    "matrix-kennwert.csv": Asked(
        [
            "line 1, column 'Kennwert': 'Kennwert' may be no place, since each of its cells is the"
            " mean of the others in its row: give --ignore 'Kennwert' to leave it out, or --sink"
            " 'Kennwert' if it is a place",
            "line 1, column 'Belag': 'Belag' has texts, and no number: give --ignore 'Belag' to",
        ]
    ),
    "matrix-demand-twice.csv": Asked(
        [
            "line 1, column 'Demand': 'Demand' is a row and a column, and may be a place, or say"
            " what places take: give --sink 'Demand' if it is a place, or --ignore 'Demand' to"
            " leave both out"
        ]
    ),
    "matrix-transport.csv": Asked(["which column is the capacity?", "--matrix, if the titles are"]),
}
