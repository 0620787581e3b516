"""What is read from the sheets in `office/`, as offices have them."""

from __future__ import annotations

from office_readings import CLOSED, CORNERS, TENTHS, THOUSANDS, TWO_WAY, VALLEY, Read

WESTERN = "is read as Windows-1252"
COMMA = "; the decimal sign is a comma"
READ: dict[str, Read] = {
    # Two columns with numbers, one of which has the title of a capacity.
    "start-end-length-qmax.csv": Read(
        "from 'Start node', to 'End node', capacity 'Q max [m³/h]' (m³/h); kept: 'Length (m)'"
    ),
    # What stands where names usually do: percentages, dates and sums.
    "load-cells.csv": Read("from 'From', to 'To', capacity 'Capacity'; kept: 'Load'"),
    "inspected.csv": Read("from 'From', to 'To', capacity 'Capacity'; kept: 'Last looked at'"),
    "running-total.csv": Read("from 'From', to 'To', capacity 'Capacity'; kept: 'Total'"),
    "us-ds.csv": Read("from 'us_node', to 'ds_node', capacity 'cap_lps' (lps); kept: 'len_m'"),
    "node-1-2.csv": Read("from 'Node 1', to 'Node 2', capacity 'Max flow'; kept: 'Diameter'"),
    "knoten-von-bis.csv": Read(
        "from 'Knoten von', to 'Knoten bis', capacity 'Qmax [l/s]' (l/s); kept: 'Länge [m]'",
        notes=[WESTERN],
    ),
    "amont-aval.csv": Read(
        "from 'Nœud amont', to 'Nœud aval', capacity 'Débit max (l/s)' (l/s); kept: 'Longueur (m)'",
        notes=[WESTERN],
    ),
    "nudo-inicial.csv": Read(
        "from 'Nudo inicial', to 'Nudo final', capacity 'Caudal máximo (l/s)' (l/s); kept:"
        " 'Longitud (m)'"
    ),
    "origen-destino.csv": Read(
        "from 'Origen', to 'Destino', capacity 'Capacidad (t/día)' (t/día); kept: 'Distancia km'"
    ),
    "anfangsknoten-dn.csv": Read(
        "from 'Anfangsknoten', to 'Endknoten', capacity 'Kapazität (m³/h)' (m³/h); kept: 'DN'"
    ),
    "tabs-ids.tsv": Read(
        "from 'From Node ID', to 'To Node ID', capacity 'Capacity ML/d' (ML/d); kept: 'Pipe ID',"
        " 'Diameter mm'"
    ),
    "camel.csv": Read("from 'FromNode', to 'ToNode', capacity 'MaxFlow'; kept: 'PipeLength'"),
    "snake-m3h.csv": Read(
        "from 'from_node', to 'to_node', capacity 'max_flow_m3h' (m3h); kept: 'length_m'"
    ),
    "capacity-first.csv": Read(
        "from 'From', to 'To', capacity 'QMax (l/s)' (l/s); kept: 'Length (m)'"
    ),
    "manholes.csv": Read(
        "from 'Upstream manhole', to 'Downstream manhole', capacity 'Full-bore capacity (l/s)'"
        " (l/s); kept: 'Gradient'"
    ),
    "source-target-weight.csv": Read(
        "from 'source', to 'target', capacity 'capacity'; kept: 'weight'"
    ),
    "strasse.csv": Read(
        "from 'Von', to 'Nach', capacity 'Max. Durchfluss', name 'Straße'; kept: 'Länge'"
    ),
    "menge.csv": Read("from 'von', to 'nach', capacity 'Menge'; kept: 'Länge'"),
    "conduite.csv": Read("from 'De', to 'Vers', capacity 'Capacité'; kept: 'Conduite', 'Diamètre'"),
    "tramo.csv": Read("from 'Desde', to 'Hasta', capacity 'Cap. máx.'; kept: 'Tramo', 'Diámetro'"),
    "capacity-and-cost.csv": Read("from 'From', to 'To', capacity 'Upper bound'; kept: 'Cost'"),
    "pipe-year.csv": Read(
        "from 'From', to 'To', capacity 'Limit', name 'Pipe'; kept: 'Year built'"
    ),
    "max-flow-rate.csv": Read(
        "from 'Origin', to 'Destination', capacity 'Max. flow rate (veh/h)' (veh/h); kept: 'Travel"
        " time (min)'"
    ),
    "bandwidth.csv": Read(
        "from 'Node A', to 'Node B', capacity 'Bandwidth (Mbit/s)' (Mbit/s); kept: 'Latency (ms)'"
    ),
    "leitung-von-bis.csv": Read(
        "from 'von Knoten', to 'bis Knoten', capacity 'zul. Durchfluss [l/s]' (l/s); kept:"
        " 'Leitungs-Nr.', 'Durchmesser [mm]'"
    ),
    "coordinates.csv": Read(
        "from 'from', to 'to', capacity 'capacity'; kept: 'x1', 'y1', 'x2', 'y2'"
    ),
    "unit-cells.csv": Read("from 'From', to 'To', capacity 'Max flow' (l/s); kept: 'Length'"),
    "troncons.csv": Read(
        "from 'Nœud de départ', to 'Nœud d’arrivée', capacity 'Débit maximal (l/s)' (l/s); kept:"
        " 'N° de tronçon', 'Ø (mm)'"
    ),
    "tramos-km.csv": Read(
        "from 'Nodo de origen', to 'Nodo de destino', capacity 'Capacidad máxima (m³/s)' (m³/s);"
        " kept: 'Tramo', 'Longitud (km)'"
    ),
    "dtv.csv": Read(
        "from 'von Knotenpunkt', to 'nach Knotenpunkt', capacity 'Leistungsfähigkeit (Kfz/h)'"
        " (Kfz/h); kept: 'Straßenabschnitt', 'DTV (Kfz/24h)'"
    ),
    "routers.csv": Read(
        "from 'Router A', to 'Router B', capacity 'Link speed (Gbit/s)' (Gbit/s); kept:"
        " 'Utilisation %', 'Provider'"
    ),
    "menge-2023.csv": Read(
        "from 'von', to 'nach', capacity 'Kapazität (t/Tag)' (t/Tag); kept: 'Menge 2023 (t)'"
    ),
    "zeilenumbruch.csv": Read(
        "from 'Von', to 'Nach', capacity 'Max. Durchfluss (l/s)' (l/s); kept: 'Baujahr', 'Material'"
    ),
    # One column with numbers.
    "pallets.csv": Read("from 'Depot', to 'Customer', capacity 'Max pallets', name 'Driver'"),
    "trains.csv": Read(
        "from 'from_station', to 'to_station', capacity 'max_trains_per_day', name 'id'; kept:"
        " 'electrified'"
    ),
    "pumpen.csv": Read("from 'von', to 'nach', capacity 'Pumpen'"),
    "trucks-only.csv": Read("from 'Depot', to 'Shop', capacity 'Lorries a day'"),
    "no-titles.csv": Read("there are no titles: from column 1, to column 2, capacity column 3"),
    "plain.csv": Read("from 'from', to 'to', capacity 'capacity', name 'name'"),
    # Percentages.
    "utilisation.csv": Read("from 'From', to 'To', capacity 'Capacity'; kept: 'Utilisation (%)'"),
    "auslastung.csv": Read("from 'von', to 'nach', capacity 'LKW'; kept: 'Auslastung'"),
    "load-percent.csv": Read("from 'From', to 'To', capacity 'Trucks'; kept: 'Load'"),
    # An index, an id or a geometry comes first.
    "pandas-index.csv": Read("from 'from', to 'to', capacity 'capacity'; kept: column 1, 'length'"),
    "lfd-nr.csv": Read("from 'von', to 'nach', capacity 'LKW'; kept: 'lfd. Nr.'"),
    "hash-index.csv": Read("from 'From', to 'To', capacity 'Trucks'; kept: '#'"),
    "id-first.csv": Read("from 'From', to 'To', capacity 'Trucks', name 'ID'"),
    "wkt.csv": Read("from 'from', to 'to', capacity 'capacity', name 'id'; kept: 'WKT', 'length'"),
    "no-titles-index.csv": Read(
        "there are no titles: from column 2, to column 3, capacity column 4; kept: column 1"
    ),
    # Rows above the titles and below the table.
    "title-above.csv": Read(
        "from 'From', to 'To', capacity 'Capacity (l/s)' (l/s); kept: 'Length (m)'",
        notes=["the titles are in line 4; what stands above is left out"],
    ),
    "titel-darueber.csv": Read(
        "from 'Von', to 'Nach', capacity 'Kapazität'; kept: 'Länge'",
        notes=[WESTERN, "the titles are in line 4; what stands above is left out"],
    ),
    "title-alone.csv": Read(
        "from 'from', to 'to', capacity 'capacity'",
        notes=["the titles are in line 3; what stands above is left out"],
    ),
    "groups-above.csv": Read(
        "from 'From', to 'To', capacity 'Max flow (l/s)' (l/s); kept: 'Length (m)'",
        notes=["the titles are in line 2; what stands above is left out"],
    ),
    "units-below.csv": Read(
        "from 'From', to 'To', capacity 'Capacity' (l/s); kept: 'Length'",
        notes=["line 2 has the units"],
    ),
    "einheiten-darunter.csv": Read(
        "from 'von', to 'nach', capacity 'Qmax' (l/s); kept: 'Länge'",
        notes=["line 2 has the units"],
    ),
    "total-below.csv": Read(
        "from 'From', to 'To', capacity 'Capacity'", notes=["line 7 is a total, and is left out"]
    ),
    "summe.csv": Read(
        "from 'Von', to 'Nach', capacity 'Kapazität', name 'Rohr'; kept: 'Länge'",
        notes=["line 8 is a total, and is left out"],
    ),
    "total-cien.csv": Read(
        "from 'Desde', to 'Hasta', capacity 'Caudal'", notes=["line 7 is a total, and is left out"]
    ),
    "sum-without-name.csv": Read(
        "from 'From', to 'To', capacity 'Capacity'", notes=["line 7 is a total, and is left out"]
    ),
    "footnotes.csv": Read(
        "from 'From', to 'To', capacity 'Capacity (l/s)' (l/s)",
        notes=[
            "below the table, line 8 is left out: '* measured in 2023'",
            "below the table, line 9 is left out: 'Source: works department'",
        ],
    ),
    "total-and-footnote.csv": Read(
        "from 'De', to 'Vers', capacity 'Débit max'",
        notes=[
            "line 7 is a total, and is left out",
            "below the table, line 9 is left out: 'Source : service des eaux'",
        ],
    ),
    "total-as-place.csv": Read(
        "from 'From', to 'To', capacity 'Capacity'", [*VALLEY, ("Town", "Total", 60)]
    ),
    "sep-line.csv": Read("from 'Von', to 'Nach', capacity 'Kapazität'; kept: 'Länge'"),
    "blank-rows.csv": Read(
        "from 'from', to 'to', capacity 'capacity'; kept: 'length'",
        notes=["the titles stand once more, and are passed over: line 8"],
    ),
    "bom.csv": Read("from 'Von', to 'Nach', capacity 'Kapazität'; kept: 'Länge'"),
    "utf-16.txt": Read("from 'Von', to 'Nach', capacity 'Kapazität'; kept: 'Länge'"),
    # Status.
    "status.csv": Read(
        "from 'From', to 'To', capacity 'Capacity', status 'Status'",
        CLOSED,
        ["rows are closed, and carry nothing, as 'Status' says: line 5"],
    ),
    "zustand.csv": Read(
        "from 'von', to 'nach', capacity 'Kapazität', status 'Zustand'",
        CLOSED,
        ["closed, and carry nothing, as 'Zustand' says: line 5"],
    ),
    "etat.csv": Read(
        "from 'de', to 'vers', capacity 'capacité', status 'État'",
        CLOSED,
        [WESTERN, "closed, and carry nothing, as 'État' says: line 5"],
    ),
    "estado.csv": Read(
        "from 'desde', to 'hasta', capacity 'capacidad', status 'Estado'",
        CLOSED,
        ["as 'Estado' says: line 5"],
    ),
    "abandoned.csv": Read(
        "from 'From', to 'To', capacity 'Capacity', status 'Pipe status'",
        CLOSED,
        ["as 'Pipe status' says: line 5"],
    ),
    "in-service.csv": Read(
        "from 'From', to 'To', capacity 'Capacity', status 'In service'",
        CLOSED,
        ["as 'In service' says: line 5"],
    ),
    "in-betrieb.csv": Read(
        "from 'von', to 'nach', capacity 'Kapazität', status 'in Betrieb'",
        CLOSED,
        ["as 'in Betrieb' says: line 5"],
    ),
    "closed-mark.csv": Read(
        "from 'From', to 'To', capacity 'Capacity', status 'Closed'",
        CLOSED,
        ["as 'Closed' says: line 5"],
    ),
    "status-blank.csv": Read(
        "from 'From', to 'To', capacity 'Capacity', status 'Status'",
        CLOSED,
        ["as 'Status' says: line 5"],
    ),
    "check-valve.csv": Read("from 'From', to 'To', capacity 'Capacity', status 'Status'"),
    "bilan.csv": Read(
        "from 'De', to 'Vers', capacity 'Capacité (m³/h)' (m³/h), status 'État'",
        CLOSED,
        ["the titles are in line 3", "line 9 is a total", "as 'État' says: line 7"],
    ),
    # Direction.
    "caudal-sentido.csv": Read(
        "from 'Desde', to 'Hasta', capacity 'Caudal (l/s)' (l/s), direction 'Sentido'; kept:"
        " 'Observaciones'",
        TWO_WAY,
        ["as 'Sentido' says: line 6"],
    ),
    "direction-both.csv": Read(
        "from 'From', to 'To', capacity 'Capacity', direction 'Direction'",
        TWO_WAY,
        ["as 'Direction' says: line 6"],
    ),
    "richtung.csv": Read(
        "from 'von', to 'nach', capacity 'Kapazität', direction 'Richtung'",
        TWO_WAY,
        ["as 'Richtung' says: line 6"],
    ),
    "oneway.csv": Read(
        "from 'source', to 'target', capacity 'capacity', direction 'oneway'",
        TWO_WAY,
        ["as 'oneway' says: line 6"],
    ),
    "sens.csv": Read(
        "from 'de', to 'vers', capacity 'débit', direction 'Sens'",
        TWO_WAY,
        ["as 'Sens' says: line 6"],
    ),
    "sentido.csv": Read(
        "from 'desde', to 'hasta', capacity 'caudal', direction 'Sentido'",
        TWO_WAY,
        ["as 'Sentido' says: line 6"],
    ),
    "reverse.csv": Read(
        "from 'From', to 'To', capacity 'Capacity', direction 'Direction'",
        VALLEY,
        ["turned, and lead backward, as 'Direction' says: line 6"],
    ),
    "two-way.csv": Read(
        "from 'From', to 'To', capacity 'Capacity', direction 'Two-way'",
        TWO_WAY,
        ["as 'Two-way' says: line 6"],
    ),
    # A least flow.
    "min-max.csv": Read(
        "from 'From', to 'To', capacity 'Max flow'; kept: 'Min flow'",
        notes=["'Min flow' is kept as a remark: a maximum flow"],
    ),
    "min-max-kept.csv": Read(
        "from 'von', to 'nach', capacity 'Max'; kept: 'Min'",
        notes=["'Min' is kept as a remark: a maximum flow"],
    ),
    # Marks between thousands.
    "thousands-some.csv": Read(
        "from 'From', to 'To', capacity 'Capacity (m³/d)' (m³/d)",
        THOUSANDS,
        ["the comma in '12,400' stands between thousands"],
    ),
    "tausender.csv": Read(
        "from 'Von', to 'Nach', capacity 'Kapazität'" + COMMA,
        THOUSANDS,
        ["the point in '12.400' stands between thousands"],
    ),
    "schweiz.csv": Read("from 'Von', to 'Nach', capacity 'Kapazität'", TENTHS),
    "espaces.csv": Read("from 'De', to 'Vers', capacity 'Débit max (m³/j)' (m³/j)" + COMMA, TENTHS),
    # Matrices and rosters.
    "matrix.csv": Read(
        (
            "a matrix: from 'from \\\\ to', to the titles of the 3 other columns; empty cells and 0"
            " are no arcs"
        ),
        [VALLEY[0], VALLEY[1], VALLEY[4], VALLEY[2], VALLEY[3]],
    ),
    "matrix-von-nach.csv": Read(
        (
            "a matrix: from 'von/nach', to the titles of the 3 other columns; empty cells and 0 are"
            " no arcs"
        ),
        [VALLEY[0], VALLEY[1], VALLEY[4], VALLEY[2], VALLEY[3]],
    ),
    # What programs write.
    "valves.inp": Read(
        "a network of EPANET: 5 pipes; capacity (in LPS, to 3 decimals) from the diameter (mm) at"
        " 1.5 m/s",
        [
            # Litres in a second through 250, 200 and 150 mm at 1.5 m/s: 1.5 pi d^2 / 4.
            ("Lake", "Mill", "73.631"),
            ("Lake", "Hill", "47.124"),
            ("Mill", "Town", "47.124"),
            ("Hill", "Town", "26.507"),
            ("Mill", "Hill", "26.507"),
        ],
        ["reservoirs supply without a limit: 'Lake'", "options name others"],
        {"velocity": 1.5},
    ),
    "pipes.geojson": Read(
        "from 'start of the line', to 'end of the line', capacity 'Qmax_lps' (lps), name 'pipe';"
        " kept: 'fid', 'length', 'WKT'",
        CORNERS,
        ["10 ends are 4 places; only ends with the same coordinates are one place"],
    ),
    "qgis.csv": Read(
        "from 'start of the line', to 'end of the line', capacity 'Qmax_lps' (lps), name 'pipe';"
        " kept: 'WKT', 'fid', 'length'",
        CORNERS,
        ["10 ends are 4 places; only ends with the same coordinates are one place"],
    ),
    "roads.graphml": Read(
        "from 'source', to 'target', capacity 'capacity'; kept: 'length'",
        [VALLEY[0], VALLEY[1], VALLEY[2], VALLEY[4], VALLEY[3]],
    ),
    "roads.edgelist": Read(
        "there are no titles: from column 1, to column 2, capacity column 3",
        [VALLEY[0], VALLEY[1], VALLEY[2], VALLEY[4], VALLEY[3]],
        ["rows lead from the first place of an edge to the second"],
    ),
    "roster-long.csv": Read(
        "from 'Nurse', to 'Shift', capacity 'Max hours'",
        [("Anna", "Mon", 8), ("Anna", "Tue", 8), ("Ben", "Tue", 6), ("Ben", "Wed", 8)],
    ),
}
