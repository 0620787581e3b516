"""A thousand seeded sheets: columns shuffled and titled in four languages, other columns with
numbers, decimals, units, blank rows, rows above and below. Each is read as it was meant, by a
second computation, or it is a question; none has another value."""

from __future__ import annotations

import random
import re
from collections.abc import Iterator
from dataclasses import dataclass, field
from decimal import Decimal
from pathlib import Path
from typing import Any

import pytest
from client_shared import dmf
from packages import load

networkx: Any = load("networkx")
COUNT = 1000
# The titles of both ends, of capacities, and of other columns with numbers, by language.
ENDS = {
    "en": [
        ("From", "To"),
        ("Start node", "End node"),
        ("us_node", "ds_node"),
        ("FromNode", "ToNode"),
        ("Source", "Target"),
        ("Node 1", "Node 2"),
        ("Origin", "Destination"),
        ("Upstream", "Downstream"),
    ],
    "de": [
        ("von", "nach"),
        ("Knoten von", "Knoten bis"),
        ("Anfangsknoten", "Endknoten"),
        ("Startpunkt", "Endpunkt"),
        ("Schacht oben", "Schacht unten"),
        ("Quelle", "Ziel"),
    ],
    "fr": [
        ("de", "vers"),
        ("De", "À"),
        ("Nœud amont", "Nœud aval"),
        ("Départ", "Arrivée"),
        ("Origine", "Destination"),
    ],
    "es": [
        ("desde", "hasta"),
        ("Nudo inicial", "Nudo final"),
        ("Origen", "Destino"),
        ("Nodo origen", "Nodo destino"),
    ],
}
CAPACITIES = {
    "en": [
        "Capacity",
        "Max flow",
        "Q max",
        "cap",
        "MaxFlow",
        "Upper bound",
        "Max. flow rate",
        "Pipe capacity",
    ],
    "de": [
        "Kapazität",
        "Qmax",
        "Max. Durchfluss",
        "zul. Durchfluss",
        "Kap.",
        "Durchfluss max",
        "Transportkapazität",
    ],
    "fr": ["Capacité", "Débit max", "Débit maximal", "Cap. max", "Débit"],
    "es": ["Capacidad", "Caudal máximo", "Caudal máx.", "Cap. máx.", "Caudal"],
}
NEUTRAL = {
    "en": ["Trucks", "Lanes", "Flow"],
    "de": ["LKW", "Spuren", "Wagen"],
    "fr": ["Camions", "Voies"],
    "es": ["Camiones", "Carriles"],
}
OTHERS = {
    "en": [
        "Length (m)",
        "Diameter",
        "Cost",
        "Year built",
        "Distance km",
        "Min flow",
        "Peak",
        "Elevation",
        "Utilisation (%)",
    ],
    "de": [
        "Länge [m]",
        "DN",
        "Kosten",
        "Baujahr",
        "Gefälle",
        "Min. Durchfluss",
        "Auslastung in %",
        "Höhe",
    ],
    "fr": ["Longueur (m)", "Diamètre", "Coût", "Année", "Pente", "Débit min", "Altitude"],
    "es": ["Longitud (m)", "Diámetro", "Coste", "Año", "Pendiente", "Caudal mínimo", "Cota"],
}
UNITS = ["", "", " (l/s)", " [m³/h]", " (t/d)", "_lps", " l/s", " in m3/h"]
STATUS = {
    "en": ("Status", "Open", "Closed"),
    "de": ("Zustand", "offen", "geschlossen"),
    "fr": ("État", "ouvert", "fermé"),
    "es": ("Estado", "abierto", "cerrado"),
}
DIRECTION = {
    "en": ("Direction", "one-way", "both"),
    "de": ("Richtung", "einfach", "beide"),
    "fr": ("Sens", "sens unique", "double sens"),
    "es": ("Sentido", "único", "ambos"),
}
TOTAL = {"en": "Total", "de": "Summe", "fr": "Total", "es": "Suma"}


@dataclass
class Made:
    """A sheet, and the arcs that are meant."""

    text: str
    encoding: str
    arcs: list[tuple[str, str, Decimal]]
    source: str
    sink: str
    has_title: bool = True
    columns: dict[str, list[str]] = field(default_factory=dict)


def number(chance: random.Random, value: Decimal, sign: str) -> str:
    text = f"{value:f}"
    return text.replace(".", sign)


def made(chance: random.Random) -> Made:
    """A sheet at random."""
    language = chance.choice("en de fr es".split())
    places = chance.sample(
        ["Lake", "Mill", "Hill", "Town", "Weir", "Ost", "Süd", "Nord 2", "S1"],
        chance.randrange(3, 7),
    )
    source, *inner, sink = places
    pairs = [
        (tail, head)
        for tail in places
        for head in places
        if tail != head and tail != sink and head != source
    ]
    chosen = chance.sample(pairs, min(len(pairs), chance.randrange(3, 10)))
    places_used = {place for pair in chosen for place in pair}
    chosen += [(source, sink)] * (source not in places_used or sink not in places_used)
    decimals = chance.choice([0, 0, 1, 2])
    sign = chance.choice([".", ","])
    most = [Decimal(chance.randrange(1, 90 * 10**decimals)).scaleb(-decimals) for _ in chosen]
    tail_title, head_title = chance.choice(ENDS[language])
    is_neutral = chance.random() < 0.25
    title = chance.choice((NEUTRAL if is_neutral else CAPACITIES)[language]) + chance.choice(UNITS)
    columns = {
        tail_title: [tail for tail, _ in chosen],
        head_title: [head for _, head in chosen],
        title: [number(chance, value, sign) for value in most],
    }
    for other in chance.sample(OTHERS[language], chance.choice([0, 1, 1, 2])):
        columns[other] = [
            number(chance, Decimal(chance.randrange(1, 2000)).scaleb(-decimals), sign)
            for _ in chosen
        ]
    if chance.random() < 0.3:
        columns["Material"] = [chance.choice(["PE", "PVC", "", "St 37"]) for _ in chosen]
    arcs = [(tail, head, value) for (tail, head), value in zip(chosen, most)]
    if chance.random() < 0.2:
        word, yes, no = STATUS[language]
        closed = [chance.random() < 0.3 for _ in chosen]
        columns[word] = [no if it else yes for it in closed]
        arcs = [
            (tail, head, Decimal(0) if it else value)
            for (tail, head, value), it in zip(arcs, closed)
        ]
    elif chance.random() < 0.2:
        word, one, both = DIRECTION[language]
        ways = [chance.random() < 0.4 for _ in chosen]
        columns[word] = [both if it else one for it in ways]
        arcs += [(head, tail, value) for (tail, head, value), it in zip(arcs, ways) if it]
    has_titles = chance.random() < 0.95
    order = list(columns)
    if has_titles:
        chance.shuffle(order)
    delimiter = ";" if sign == "," else chance.choice([",", ";", "\t"])
    lines = list(rows(chance, columns, order, delimiter, has_titles))
    if has_titles and chance.random() < 0.15:
        cells = dict.fromkeys(order, "")
        cells[order[0] if order[0] not in (title,) else tail_title] = TOTAL[language]
        cells[title] = number(chance, sum(most, Decimal(0)), sign)
        lines.append(delimiter.join(cells[it] for it in order))
    if has_titles and chance.random() < 0.15:
        lines = ["Our network" + delimiter * (len(order) - 1), "", *lines]
    encoding = chance.choice(["utf-8", "utf-8-sig", "utf-16", "cp1252"])
    return Made(
        chance.choice(["\n", "\r\n"]).join(lines) + "\n",
        encoding,
        arcs,
        source,
        sink,
        has_titles,
        columns,
    )


def rows(
    chance: random.Random,
    columns: dict[str, list[str]],
    order: list[str],
    delimiter: str,
    has_titles: bool,
) -> Iterator[str]:
    if has_titles:
        yield delimiter.join(order)
    for at in range(len(columns[order[0]])):
        if chance.random() < 0.05:
            yield delimiter * (len(order) - 1)
        yield delimiter.join(columns[title][at] for title in order)


def greatest(sheet: Made) -> Decimal:
    """The greatest value, by networkx in hundredths."""
    graph = networkx.DiGraph()
    graph.add_nodes_from([sheet.source, sheet.sink])
    for tail, head, most in sheet.arcs:
        before = graph.get_edge_data(tail, head, {"capacity": 0})["capacity"]
        graph.add_edge(tail, head, capacity=before + int(100 * most))
    return Decimal(networkx.maximum_flow_value(graph, sheet.source, sheet.sink)) / 100


@pytest.mark.seconds(60)
def test_a_thousand_sheets(tmp_path: Path) -> None:
    """Most are read at once. One that is not is a question, or has a place that is in no row."""
    chance = random.Random(71)
    right = 0
    for count in range(COUNT):
        sheet = made(chance)
        path = tmp_path / f"{count}.csv"
        path.write_bytes(sheet.text.encode(sheet.encoding))
        try:
            network = dmf.read_table(path, source=sheet.source, sink=sheet.sink)
        except dmf.TableFault as fault:
            assert re.search(
                "which column|may be|seems to say", str(fault)
            ), f"{sheet.text}\n{fault}"
            continue
        with network:
            assert network.solve().value == greatest(sheet), f"{sheet.text}\n{network.notes}"
        right += 1
    assert right > 0.75 * COUNT
