"""What the title of a column says of it, in English, German, French and Spanish.

A title is folded to its words: in small letters, without accents, and without the unit that it
names in brackets or at its end. `Q max [m³/h]` has the words `q max` and the unit `m³/h`,
`FromNode` the words `from node`, and `cap_lps` the word `cap` and the unit `lps`."""

from __future__ import annotations

import re
import unicodedata
from collections.abc import Iterator, Sequence
from typing import NamedTuple

from ..text.spelling import cleaned

TAIL, HEAD, CAPACITY, NAME = COLUMNS = "tail", "head", "capacity", "name"
PLACE, LIMIT, SUPPLY, DEMAND = "place", "limit", "supply", "demand"
STATUS, DIRECTION = "status", "direction"
# What the ends of the lines of a map are called as columns.
START_OF_LINE, END_OF_LINE = "start of the line", "end of the line"
# Usual titles, in the order of preference. A low line stands for a blank.
_USUAL = {
    TAIL: (
        "start_of_the_line "
        "from tail von de desde source start origin quelle origine origen startknoten "
        "anfangsknoten anfang ab depart amont inicio upstream src"
    ),
    HEAD: (
        "end_of_the_line "
        "to head nach a vers hasta target sink destination end ziel senke destino endknoten "
        "zielknoten ende bis arrivee aval fin downstream dst"
    ),
    CAPACITY: (
        "capacity cap kap kapazitat kapazitaet capacite capacidad max maximum maximo maximal"
        " durchfluss debit caudal throughput bandwidth amount menge quantite cantidad weight"
        " gewicht poids peso limit limite grenze"
    ),
    NAME: (
        "name label bezeichnung nom nombre etiquette etiqueta arc kante arete arco edge pipe rohr "
        "leitung tuyau tubo tuberia road strasse route calle id key nr no number numero nummer"
    ),
    PLACE: "place node ort knoten lieu noeud lugar nodo name nom nombre station depot shop site",
    LIMIT: (
        "limit limite grenze grenzwert hochstens throughput durchsatz most max maximum maximo "
        "capacity kapazitat kapazitaet capacite capacidad lets_through laisse_passer deja_pasar"
    ),
    SUPPLY: (
        "supply angebot einspeisung zufluss offre apport oferta suministro source quelle fuente "
        "stock"
    ),
    DEMAND: (
        "demand bedarf abnahme nachfrage entnahme demande besoin demanda consumo sink senke "
        "sumidero order orders"
    ),
}
USUAL = {role: [word.replace("_", " ") for word in words.split()] for role, words in _USUAL.items()}
# Usual titles of columns that are read for nothing, so that they are not names where they stand in
# the place of names, and not capacities where no other column has numbers.
OTHERS = set(
    "cost costs kosten cout coste price preis length lange laenge longueur longitud distance"
    " diameter durchmesser dn diametre diametro x y z lat lon latitude longitude remark remarks"
    " bemerkung bemerkungen comment comments kommentar note notes notiz remarque observacion year"
    " jahr baujahr date datum fecha built gebaut".split()
)


def _words(text: str) -> frozenset[str]:
    return frozenset(text.split())


# Words beside those of `_USUAL` that say from where and to where, if all other words of the title
# are words for places.
_ENDS = {
    TAIL: _words(_USUAL[TAIL]) - {"de", "a"}
    | _words("us up initial inicial begin beginn oben departure abfahrt abgang startpunkt startort "
    "anfangspunkt anfangsschacht startschacht debut sender"),
    HEAD: _words(_USUAL[HEAD]) - {"a"}
    | _words("ds down final dest dn2 unten arrival ankunft endpunkt zielort zielpunkt endschacht "
    "zielschacht llegada receiver endpoint"),
}  # fmt: skip
_PLACES = _words(
    "node nodes knoten noeud nudo nodo place ort lieu lugar station point punkt punto id name nom "
    "nombre nr no number code junction jct manhole mh schacht regard pozo knotenpunkt vertex city "
    "stadt ville ciudad location site place"
)
# Words that may stand between a place and an end, as in `Nœud de départ`.
_JOINING = _words("de d du des del la le l of the")
# In French and Spanish these stand before a place; elsewhere they are letters, or other words.
_BEFORE_PLACES = {TAIL: "de", HEAD: "a"}
# The last words of titles of two columns that are the two ends: `Node 1` and `Node 2`.
_PAIRS = [("1", "2"), ("a", "b"), ("i", "j"), ("u", "v")]
_LETTERS = [pair for pair in _PAIRS if pair[0].isalpha()]

# A capacity by its title: one of the first words and none but those of the lists, or a word for the
# most and one for a flow.
_CAPACITIES = _words(
    "capacity capacities cap kap kapazitat kapazitaet capacite capacidad upperbound obergrenze qmax"
    " maxflow maxq maxdurchfluss transportkapazitat leitungskapazitat forderkapazitat"
    " leistungsfahigkeit"
)
_MOST = _words(
    "max maximum maximal maximaler maximale maximales maximo maxima maxi maximale zul zulassig "
    "zulassiger zulassige admissible allowed permitted permissible hochst hochster"
)
_FLOWS = _words(
    "flow q fluss durchfluss debit caudal rate throughput durchsatz abfluss gasto flux transport"
)
_BESIDE = _words(
    "full bore pipe link arc edge line route road hydraulic total daily hourly per day hour week"
    " tag stunde woche jour heure dia hora pro je par por installed installiert of the de la du der"
    " des rohr leitung leitungs conduite tramo"
)
_UPPER = [
    _words(title)
    for title in (
        "upper bound",
        "upper limit",
        "obere grenze",
        "borne superieure",
        "cota superior",
        "limite superior",
        "limite superieure",
    )
]
# Usual titles of capacities that also name other things.
WEAK = _words("weight gewicht poids peso")
# What makes a title that of something else.
_MINIMUM = _words(
    "min minimum minimal minimo mini mindest mindestens minimaler minimale lower mindestfluss "
    "mindestmenge mindestdurchfluss untergrenze"
)
_PERCENT = _words(
    "utilisation utilization utilizacion auslastung auslastungsgrad belegung ausnutzung usage "
    "occupancy taux percent percentage prozent pourcentage porcentaje pct"
)
# What is used or left of a capacity, or is said of it.
_USED = _words(
    "used usage belegt genutzt utilise usado remaining spare free frei freie rest reserve residual "
    "left available verfugbar disponible factor faktor class klasse note remark bemerkung source "
    "quelle date datum year jahr cost kosten price preis id"
)
# How words begin that may say which rows are open, or which way they lead.
_STATE_STEMS = (
    "clos", "shut", "sperr", "gesperr", "geschloss", "stillg", "betrieb", "aktiv", "activ", "ferm",
    "cerrad", "abiert", "ouvert", "offen", "bidir", "einbahn", "oneway", "beidseit", "zweiweg",
    "reversib", "richtung", "direction", "sens", "sentido",
)  # fmt: skip
# Counters of rows.
_INDEX = _words("index idx row rowid zeile pos position lfd lfdnr unnamed objectid fid gid ogc")

_STATES = {
    STATUS: _words("status state zustand betriebszustand betriebsstatus etat statut estado"),
    DIRECTION: _words(
        "direction richtung flussrichtung fliessrichtung fahrtrichtung sens sentido direccion"
    ),
}
_STATE_BESIDE = _words(
    "pipe link arc valve edge road line flow leitung leitungs rohr conduite tramo of de la du the "
    "initial current operational operating service travel traffic"
)
# Whole titles whose cells say yes or no.
OPEN, CLOSED, ONE_WAY, TWO_WAY = "open", "closed", "one way", "two way"
_FLAGS = {
    OPEN: (
        "open|is open|offen|ouvert|ouverte|abierto|abierta|active|is active|aktiv|actif|activo|"
        "in service|in betrieb|en service|en servicio|enabled"
    ),
    CLOSED: (
        "closed|is closed|geschlossen|gesperrt|ferme|fermee|cerrado|cerrada|abandoned|stillgelegt|"
        "out of service|ausser betrieb|hors service|fuera de servicio|disabled"
    ),
    ONE_WAY: "oneway|one way|is oneway|einbahn|einbahnstrasse|einbahnstr|sens unique|sentido unico",
    TWO_WAY: (
        "two way|twoway|both ways|bidirectional|bidir|bidirektional|beide richtungen|deux sens|"
        "double sens|ambos sentidos|doble sentido|bidirectionnel|bidireccional"
    ),
}
FLAGS = {title: kind for kind, titles in _FLAGS.items() for title in titles.split("|")}

# What a row of totals begins with.
_TOTALS = set(
    "total totals totale totaux sum sums summe summen gesamt gesamtsumme insgesamt somme suma "
    "subtotal zwischensumme zeilensumme spaltensumme \u03c3".split()
)
_BEFORE_TOTALS = set("grand gran sub sous row column col".split())
# How many words a cell that names a total may have, and how many a message lists.
MOST_WORDS = 5

# Units that stand at the end of a title without brackets.
_UNITS = _words(
    "lps ls l/s lpm l/min l/h lph m3h m3/h m³/h cmh m3s m3/s m³/s cms m3d m3/d m³/d mld ml/d mgd"
    " gpm cfs kbps mbps gbps kbit/s mbit/s gbit/s veh/h vph pcu/h t/h t/d t/a kg/h kg/s mw kw kva"
    " mva m mm cm km ft kg m2 m3 m³"
)
# A unit in a cell of its own, below the titles.
_ALONE = _UNITS | _words("s h d t l min % ‰ stk stück pcs € eur $ m/s km/h")
_VOLUMES = _words("litre litres liter liters litros gallons kubikmeter m3")
_PER_WORDS = _words("per pro par por je")
_TIMES = "s|sec|min|h|hr|hour|d|day|tag|jour|dia|día|j|a|y|week|wk"
_PER = re.compile(rf"[^\W\d_]{{1,7}}[23²³]?/(?:{_TIMES})", re.IGNORECASE)
_BRACKETED = re.compile(r"(.*?)\s*(?:\(([^()]+)\)|\[([^\[\]]+)\]|\bin ([^\s()]*/[^\s()]*))")
_SUFFIXED = re.compile(r"(.*[^\W_])[\s_,.]+([^\s_,]+)")
_HUMPS = re.compile(
    r"(?<=[^\W\d_A-ZÄÖÜ])(?=[A-ZÄÖÜ])|(?<=[^\W\d_])(?=\d)|(?<=[A-ZÄÖÜ])(?=[A-ZÄÖÜ][a-zäöü])"
)
_LIGATURES = str.maketrans({"\xdf": "ss", "\u0153": "oe", "\xe6": "ae", "\xf8": "o", "\u0142": "l"})


class Title(NamedTuple):
    """A title as it stands, its words, and the unit in it."""

    text: str
    word: str
    unit: str

    @property
    def words(self) -> list[str]:
        return self.word.split()


def folded(text: str) -> str:
    """Return the words of a text, in small letters and without accents."""
    letters = unicodedata.normalize("NFKD", text.casefold().translate(_LIGATURES))
    plain = "".join(it for it in letters if not unicodedata.combining(it))
    return " ".join(re.findall(r"[^\W_]+", plain))


def title_of(cell: str) -> Title:
    """Return the title in a cell."""
    text = cleaned(cell)
    found = _BRACKETED.fullmatch(text)
    if found:
        return Title(
            text, folded(_HUMPS.sub(" ", found[1])), cleaned(found[2] or found[3] or found[4])
        )
    suffixed = _SUFFIXED.fullmatch(text)
    if suffixed and (suffixed[2].casefold() in _UNITS or _PER.fullmatch(suffixed[2])):
        return Title(text, folded(_HUMPS.sub(" ", suffixed[1])), suffixed[2])
    return Title(text, folded(_HUMPS.sub(" ", text)), "")


def is_unit(cell: str) -> bool:
    """Return True if a cell is a unit, as in a row of units below the titles."""
    text = cleaned(cell)
    inner = text[1:-1].strip() if text[:1] + text[-1:] in ("[]", "()") and len(text) > 1 else text
    return (
        inner.casefold() in _ALONE
        or bool(_PER.fullmatch(inner))
        or inner != text
        and len(inner) < 12
    )


def unit_in(cell: str) -> str:
    """Return the unit in such a cell; empty for a dash."""
    inner = cleaned(cell).strip("[]()").strip()
    return "" if inner in ("-", "\u2013", "\u2014") else inner


def says_end(title: Title, role: str) -> bool:
    """Return True if a title says that its column has the places from where rows lead, or to
    where."""
    words, other = title.words, HEAD if role == TAIL else TAIL
    if words[:1] == [_BEFORE_PLACES[role]]:
        return bool(words[1:]) and _PLACES.issuperset(words[1:])
    words = [word for word in words if word not in _JOINING]
    is_of_role = not _ENDS[role].isdisjoint(words) and _ENDS[other].isdisjoint(words)
    return is_of_role and (_ENDS[role] | _PLACES).issuperset(words)


def paired(titles: Sequence[Title]) -> tuple[int, int] | None:
    """Return the two columns that are the two ends of rows by their titles together, as `Node 1`
    and `Node 2`, or `A` and `B`; none if no two columns are, or more than one pair."""
    found = list(_all_pairs(titles))
    return found[0] if len(found) == 1 else None


def _all_pairs(titles: Sequence[Title]) -> Iterator[tuple[int, int]]:
    at: dict[tuple[str, ...], list[int]] = {}
    for place, title in enumerate(titles):
        at.setdefault(tuple(title.words), []).append(place)
    for words, places in at.items():
        base, last = words[:-1], words[-1:]
        for first, second in _PAIRS if base else _LETTERS:
            others = at.get((*base, second), [])
            if last == (first,) and len(places) == len(others) == 1 and _PLACES.issuperset(base):
                yield places[0], others[0]


def says_capacity(title: Title) -> bool:
    """Return True if a title says that its column has capacities, and nothing else."""
    words = set(title.words)
    if is_share(title) or is_least(title):
        return False
    if any(bound <= words and bound | _BESIDE | _FLOWS >= words for bound in _UPPER):
        return True
    is_capacity = bool(words & _CAPACITIES) or bool(words & _MOST and words & _FLOWS)
    return is_capacity and _CAPACITIES | _MOST | _FLOWS | _BESIDE >= words


def rivals_capacity(title: Title) -> bool:
    """Return True if a title is that of another capacity than the usual one, as `Capacity reverse`
    or `Peak capacity`; what is used or left of a capacity is not one."""
    words = set(title.words)
    is_capacity = bool(words & _CAPACITIES) or bool(words & _MOST and words & _FLOWS)
    is_left = is_share(title) or is_least(title) or bool(words & _USED)
    return is_capacity and not is_left and not says_capacity(title)


def hints_at_state(title: Title) -> bool:
    """Return True if a title may be that of a column of states, although it is not a usual one."""
    return any(word.startswith(_STATE_STEMS) for word in title.words)


def is_rate(title: Title) -> bool:
    """Return True if a title is the name of a unit of flow, as `litres per second`."""
    words = title.words
    is_named = len(words) == 3 and words[0] in _VOLUMES and words[1] in _PER_WORDS
    return is_named or bool(_PER.fullmatch(title.text))


def is_least(title: Title) -> bool:
    """Return True if a title is that of the least that rows carry."""
    words = set(title.words)
    return (
        bool(words & _MINIMUM)
        and _MINIMUM | _FLOWS | _CAPACITIES | {"bound", "limit", "menge"} >= words
    )


def is_share(title: Title) -> bool:
    """Return True if a title is that of percentages."""
    return (
        title.unit.strip() in ("%", "\u2030")
        or "%" in title.text
        or not _PERCENT.isdisjoint(title.words)
    )


def is_other(title: Title) -> bool:
    """Return True if a title is that of a column that is read for nothing, such as a length."""
    is_named = title.word in OTHERS or any(len(it) > 1 and it in OTHERS for it in title.words)
    return is_named or is_share(title) or is_least(title)


def is_index(title: Title) -> bool:
    """Return True if a title can be that of the numbers of rows."""
    return not title.word or not _INDEX.isdisjoint(title.words)


def names_total(cell: str) -> bool:
    """Return True if a cell names a row or a column of totals."""
    # The sign of a sum is the Greek letter, or one like it that is none.
    words = folded(cell.replace("\u2211", "\u03a3")).split()
    if words[:1] and words[0] in _BEFORE_TOTALS:
        words = words[1:]
    return 0 < len(words) <= MOST_WORDS and words[0] in _TOTALS


def says_state(title: Title, role: str) -> bool:
    """Return True if a title is that of a column of states: whether rows are open, or which way
    they lead."""
    words = set(title.words)
    if FLAGS.get(title.word) in ((OPEN, CLOSED) if role == STATUS else (ONE_WAY, TWO_WAY)):
        return True
    return bool(words & _STATES[role]) and _STATES[role] | _STATE_BESIDE >= words
