"""Rosters as wards have them: what each says is read, its value is that of a network that networkx
solves, and what a roster leaves open is asked for."""

from __future__ import annotations

import csv
import random
from collections import Counter
from collections.abc import Iterator, Sequence
from dataclasses import dataclass, field
from pathlib import Path
from typing import Any, Optional

import pytest
from client_shared import dmf
from desk_shared import ROOT, run
from dmf.tables.loader import TableOptions, subject_of
from dmf.tables.table_file import ReadOptions
from office_shared import at_a_terminal
from packages import load

networkx: Any = load("networkx")
ROTA = ROOT / "examples" / "rota" / "rota.csv"


@dataclass
class Ward:
    """A roster as a person sees it: by the shift its day and how many people it needs; by the
    person what they may work (None without a limit), and the shifts that they can take."""

    needs: dict[str, tuple[str, int]] = field(default_factory=dict)
    limits: dict[str, Optional[int]] = field(default_factory=dict)
    can: dict[str, list[str]] = field(default_factory=dict)


def greatest(ward: Ward, length: int, daily: Optional[int]) -> int:
    """What can be staffed, in the unit of the limits, by networkx."""
    graph = networkx.DiGraph()
    for person, limit in ward.limits.items():
        whole = length * 1000 if limit is None else limit // length * length
        graph.add_edge("s", ("person", person), capacity=whole)
        for shift in ward.can[person]:
            day = ("day", person, ward.needs[shift][0])
            graph.add_edge(("person", person), day, capacity=length * (daily or 1000))
            graph.add_edge(day, ("shift", shift), capacity=length)
    for shift, (_, count) in ward.needs.items():
        graph.add_edge(("shift", shift), "t", capacity=length * count)
    graph.add_nodes_from("st")
    value: int = networkx.maximum_flow_value(graph, "s", "t")
    return value


def ward_of(path: Path) -> Ward:
    """The ward of the example, whose days are the first words of its shifts."""
    needed, *people = csv.DictReader(path.open())
    shifts = [title for title in needed if title not in ("name", "hours")]
    return Ward(
        {shift: (shift.split()[0], int(needed[shift])) for shift in shifts},
        {person["name"]: int(person["hours"]) for person in people},
        {person["name"]: [shift for shift in shifts if person[shift] == "x"] for person in people},
    )


def test_the_example() -> None:
    """All 16 people that are needed would work 128 hours; 120 can be staffed."""
    ward = ward_of(ROTA)
    assert (greatest(ward, 8, 1), 8 * sum(count for _, count in ward.needs.values())) == (120, 128)
    with dmf.read_table(ROTA, shift=8, daily=1) as network:
        assert network.solve().value == 120 and network.unit == "hours"
        assert network.notes == [
            "a roster: people from 'name', at most 'hours' each, needs from 'people needed', 9 "
            "shifts of 8 hours (1 a day, of 'Fri', 'Sat', 'Sun')"
        ]
    with dmf.read_table(ROTA, shift=8, daily="all") as network:
        assert network.solve().value == greatest(ward, 8, None)


def test_by_the_tools(tmp_path: Path) -> None:
    """One command reads it; a script that says nothing gets the questions one after the other."""
    words = [str(ROTA), "--shift", "8", "--daily", "1"]
    ran = run("dmf-plan", *words, typed="solve\nplaces\n")
    assert ran.stdout.startswith("value 120 hours") and ran.returncode == 0
    assert ran.stdout.splitlines()[-1] == "short by 8 hours: Sun night (0 of 8)"
    ran = run("dmf-plan", str(ROTA), typed="solve\n")
    assert (ran.returncode, ran.stdout) == (3, "") and "--shift 8  " in ran.stderr
    ran = run("dmf-plan", *words[:3], typed="solve\n")
    assert (ran.returncode, ran.stdout) == (3, "")
    assert "The days are 'Fri', 'Sat', 'Sun'" in ran.stderr and "--daily all" in ran.stderr


def test_a_terminal_is_asked() -> None:
    words = [str(ROOT / "tools" / "dmf-plan"), str(ROTA)]
    answers = [b"8\n", b"0\n", b"1\n", b"solve\nquit\n"]
    prompts = ["shift (a number above 0): ", "or all): ", "above 0, or all: 0", "greatest>"]
    status, told = at_a_terminal(words, answers, prompts)
    assert status == 0 and "value 120 hours" in told, told
    assert "next time: --shift 8" in told and "next time: --daily 1" in told, told


def test_a_project_keeps_the_options(tmp_path: Path) -> None:
    """A project is opened on a roster that changed, and reads it in the same way."""
    path = tmp_path / "rota.csv"
    path.write_bytes(ROTA.read_bytes())
    run("dmf-plan", str(path), "--shift", "8", "--daily", "1", "--keep", typed="solve\n")
    path.write_text(path.read_text().replace("Gita,16,x,,,x,,,x,,", "Gita,16,x,,,x,,,x,x,"))
    assert greatest(ward_of(path), 8, 1) == 128
    ran = run("dmf-plan", str(tmp_path / "rota.dmf.json"), typed="solve\n")
    assert ran.stdout.splitlines()[-1].startswith("value 128 hours"), ran
    with dmf.new_project(ROTA, tmp_path / "p.dmf.json", shift=8, daily=1) as made:
        assert made.value == 120


# Made rosters. By language: the titles of people, limits and wards, the row of needs, the days and
# shifts, and the marks.
LANGUAGES: dict[str, dict[str, Any]] = {
    "en": {
        "name": ["name", "Employee", ""],
        "limit": ["hours", "Max hours per week", "Contract (h)"],
        "ward": ["ward", "Unit"],
        "needs": ["people needed", "Required staff", "Needs"],
        "days": ["Mon", "Tuesday", "Wed", "Thu"],
        "shifts": ["early", "late", "night"],
        "marks": ["x", "X", "yes", "✓"],
    },
    "de": {
        "name": ["Name", "Mitarbeiterin"],
        "limit": ["Stunden", "max. Std.", "Vertrag (Std.)"],
        "ward": ["Station", "Abteilung"],
        "needs": ["Bedarf", "Benötigte Personen", "Personalbedarf"],
        "days": ["Mo", "Di", "Mittwoch", "Do"],
        "shifts": ["Früh", "Spät", "Nacht"],
        "marks": ["x", "ja", "1"],
    },
    "fr": {
        "name": ["Nom", "Infirmière"],
        "limit": ["Heures", "heures max", "Contrat (h)"],
        "ward": ["Service", "Unité"],
        "needs": ["Besoins", "Personnel requis", "effectif nécessaire"],
        "days": ["lundi", "mar", "mercredi", "jeu."],
        "shifts": ["matin", "soir", "nuit"],
        "marks": ["x", "oui"],
    },
    "es": {
        "name": ["Nombre", "Enfermera"],
        "limit": ["Horas", "horas máximas", "Contrato (h)"],
        "ward": ["Unidad", "Planta"],
        "needs": ["Necesarios", "Personal requerido", "Personas necesarias"],
        "days": ["lunes", "martes", "miércoles", "jue"],
        "shifts": ["mañana", "tarde", "noche"],
        "marks": ["x", "sí"],
    },
}


@dataclass
class Made:
    """A made roster: its rows, what a person sees in it, and what options say."""

    rows: list[list[str]]
    ward: Ward
    given: dict[str, Any]


def named(column: tuple[str, str], ward: str) -> str:
    """The name of a shift in a ward."""
    return " ".join(column) + (f", {ward}" if ward else "")


def made(chance: random.Random) -> Made:
    """A roster of one ward or of two, in which somebody may work in both."""
    words = LANGUAGES[chance.choice([*LANGUAGES])]
    days = words["days"][: chance.randint(1, 4)]
    kinds = words["shifts"][: chance.randint(1, 3)]
    columns = [(day, kind) for day in days for kind in kinds]
    wards = ["A", "B"] if chance.random() < 0.4 else [""]
    above = chance.random() < 0.3 and len(kinds) > 1
    length, daily = chance.choice([1, 6, 8]), chance.choice([1, 2, "all"])
    is_limited = chance.random() < 0.8
    mark = chance.choice(words["marks"])
    others = [("remark", "")] * (chance.random() < 0.4)
    seen = Ward()
    needs = {ward: {column: chance.randint(0, 3) for column in columns} for ward in wards}
    for ward in wards:
        seen.needs.update(
            {named(column, ward): (column[0], needs[ward][column]) for column in columns}
        )
    cells: list[tuple[str, str, str, list[str]]] = []
    for number in range(chance.randint(3, 9)):
        name, limit = f"P{number}", chance.randint(0, 5) * length + chance.randint(0, length - 1)
        seen.limits[name], seen.can[name] = limit if is_limited else None, []
        for ward in chance.sample(wards, chance.randint(1, len(wards))):
            can = [column for column in columns if chance.random() < 0.4]
            seen.can[name] += [named(column, ward) for column in can]
            marks = [mark if column in can else chance.choice(["", "", "-"]) for column in columns]
            cells.append((ward, name, str(limit), marks))
    needed = chance.choice(words["needs"])
    rows = [(ward, needed, "", [*map(str, needs[ward].values())]) for ward in wards]
    body = rows + cells if chance.random() < 0.7 else cells + rows
    order = ["ward"] * (wards != [""]) + ["name"] + ["limit"] * is_limited
    chance.shuffle(order)
    heads = {key: chance.choice(words[key]) for key in ("ward", "name", "limit")}
    titles = [kind if above else f"{day} {kind}" for day, kind in columns]
    lines = [[*[heads[key] for key in order], *titles, *[title for title, _ in others]]]
    if above:
        spans = [day if at == 0 else "" for day in days for at in range(len(kinds))]
        lines.insert(0, [*[""] * len(order), *spans, *[""] * len(others)])
    for ward, name, limit, marks in body:
        said = {"ward": ward, "name": name, "limit": limit}
        lines.append([*[said[key] for key in order], *marks, *[cell for _, cell in others]])
    given: dict[str, Any] = {"shift": length}
    if len(kinds) > 1:
        given["daily"] = daily
    return Made(lines, seen, given)


def written(folder: Path, rows: Sequence[Sequence[str]]) -> Path:
    path = folder / "rota.csv"
    with path.open("w", newline="") as file:
        csv.writer(file).writerows(rows)
    return path


def crosses(rows: Sequence[Sequence[str]]) -> int:
    """In how many columns a mark stands that is not also a number."""
    marks = {"x", "yes", "✓", "ja", "oui", "sí"}
    return len({at for row in rows for at, cell in enumerate(row) if cell.lower() in marks})


@pytest.mark.seconds(30)
def test_made_rosters(tmp_path: Path) -> None:
    """Each has the value of the network that a person sees in it; the others have too few marks to
    be told from another table, and are refused."""
    counts: Counter[str] = Counter()
    for seed in range(120):
        roster = made(random.Random(seed))
        path = written(tmp_path, roster.rows)
        if crosses(roster.rows) < 2:
            counts["few"] += 1
            with pytest.raises(dmf.TableFault):
                dmf.read_table(path, **roster.given)
            continue
        daily = roster.given.get("daily", "all")
        most = None if daily == "all" else daily
        with dmf.read_table(path, **roster.given) as network:
            value = greatest(roster.ward, roster.given["shift"], most)
            assert network.solve().value == value, (seed, path.read_text())
            counts["read"] += 1
    assert counts["read"] > 80, counts


def told_of(text: str, **given: Any) -> str:
    """What a tool tells of a roster that it refuses."""
    reading = ReadOptions(**given)
    with pytest.raises(dmf.TableFault) as caught:
        subject_of(TableOptions(reading), "t.csv", text.encode())
    return str(caught.value).removeprefix("t.csv")


def read_text(folder: Path, text: str, **given: Any) -> Any:
    (folder / "t.csv").write_text(text)
    return dmf.read_table(folder / "t.csv", **given)


PLAIN = "name,shifts,Mon,Tue,Wed\nneeded,,1,1,1\nAnna,2,x,x,\nBen,1,,x,x\n"


def test_limits_in_shifts(tmp_path: Path) -> None:
    """Where people may work so many shifts, and each day has one, nothing is asked."""
    with read_text(tmp_path, PLAIN) as network:
        assert network.solve().value == 3 and network.unit == "shifts"


def test_needs_that_no_word_names(tmp_path: Path) -> None:
    """The row is asked for, with the texts that begin the rows that can be it."""
    text = PLAIN.replace("needed", "Mindestens")
    told = told_of(text)
    assert told.startswith(": which row says how many people each shift needs?"), told
    with read_text(tmp_path, text, needs="Mindestens") as network:
        assert network.solve().value == 3
    assert "no row of needs is called 'Mindestns'" in told_of(text, needs="Mindestns")


def test_limits_that_no_title_names(tmp_path: Path) -> None:
    text = PLAIN.replace("shifts", "Pensum")
    told = told_of(text)
    assert "which column says how much each person may work?" in told
    assert "--capacity Pensum  as in 2, 1" in told, told
    assert "how long is a shift?" in told_of(text, titles={"capacity": "Pensum"})
    for titles in {"capacity": "Pensum"}, {"capacity": "column 2"}:
        with read_text(tmp_path, text, columns=titles, shift=1) as network:
            assert network.solve().value == 3
    with read_text(tmp_path, text, ignore=["Pensum"]) as network:
        assert network.solve().value == 3 and "not read: 'Pensum'" in network.notes[0]


def test_a_part_of_a_shift(tmp_path: Path) -> None:
    """Nobody works a part of a shift: 15 hours are one of 8."""
    text = "name,hours,Mon,Tue\npeople needed,,1,1\nAnna,15,x,x\n"
    with read_text(tmp_path, text, shift=8) as network:
        assert network.solve().value == 8
        assert "line 3: the whole shifts of 'Anna' are 8 of 15 hours" in network.notes


def test_nobody_and_nothing(tmp_path: Path) -> None:
    """A shift that nobody can take is short, and a person who can take none has hours left."""
    text = "name,hours,Mon,Tue,Wed\npeople needed,,1,1,2\nAnna,8,x,x,\nBen,16,,,\n"
    (tmp_path / "t.csv").write_text(text)
    ran = run("dmf-plan", str(tmp_path / "t.csv"), "--shift", "8", typed="solve\nplaces\n")
    *_, last = ran.stdout.splitlines()
    assert last.startswith("short by 24 hours: ") and "Wed (0 of 16)" in last
    assert "no shift has a mark of 'Ben'" in ran.stderr
    assert ran.stdout.startswith("value 8 hours")


HOURS = "name,hours,Mon,Tue\npeople needed,,1,1\nAnna,8,x,x\nBen,8,x,\n"


@pytest.mark.parametrize(
    "old, new, told",
    [
        ("Ben,8,x,", "Ben,8,U,", "line 4, column 'Mon': 'U' does not say whether somebody can"),
        ("needed,,1,1", "needed,,1,", "has marks, as in line 3, and no row says how many people"),
        ("needed,,1,1", "needed,,1,1.5", "'1.5' is not a whole number of people"),
        ("needed,,1,1", "needed,,1,-1", "'-1' is not a number of at least 0"),
        ("Ben,8,x,", "Anna,8,x,", "line 4: 'Anna' stands in line 3 already"),
        ("Ben,8,x,", "Ben,,x,", "line 4, column 'hours': no limit. Give --missing 0"),
        ("Ben,8,x,", "Ben,n/a,x,", "line 4, column 'hours': no limit. Give --missing 0"),
        ("Ben,8,x,", ",8,x,", "line 4, column 'name': no name"),
        ("Ben,8,x,", "Tue,8,x,", "a person and a shift are both called 'Tue'"),
        ("Mon,Tue", "Mon,Mon", "two columns have the title 'Mon'"),
        ("Mon,Tue", "Mon,", "no row has the titles of the shifts"),
        ("Ben,8,x,", "people needed,,2,1", "lines 2 and 4 both say how many people"),
    ],
)
def test_faults(old: str, new: str, told: str) -> None:
    assert told in told_of(HOURS.replace(old, new), shift=8), told_of(HOURS.replace(old, new))


def test_options_of_others(tmp_path: Path) -> None:
    """What is said of a roster and is none is refused, and rows of a roster lead one way."""
    text = "from,to,capacity\nA,B,3\n"
    for option, value in ("shift", 8), ("daily", "1"), ("needs", "Bedarf"):
        told = told_of(text, **{option: value})
        assert f"--{option} is for rosters" in told or "no row of needs is called" in told
    with pytest.raises(dmf.TableFault, match="leave out both_ways=True|leave out --both-ways"):
        read_text(tmp_path, HOURS, shift=8, both_ways=True)
    with pytest.raises(dmf.TableFault, match=r"shift=8"):
        read_text(tmp_path, HOURS)
    for option, value in ("shift", 0), ("daily", "0"), ("daily", 1.5):
        with pytest.raises(ValueError):
            read_text(tmp_path, HOURS, **{option: value})


def test_notes_and_totals(tmp_path: Path) -> None:
    """A title above, a total and a note below, and a missing limit that is read as 0."""
    text = "Rota of ward 3,,,\n,,,\n" + HOURS + "Carl,-,x,x\nTotal,16,2,1\n,,,\nx = can come,,,\n"
    with read_text(tmp_path, text, shift=8, missing=0) as network:
        assert network.solve().value == 16
        told = "\n".join(network.notes)
        assert "the titles are in line 3" in told and "line 8 is a total, and is left out" in told
        assert "line 10 has nothing but 'x = can come', and is left out" in told


def lines(text: str) -> Iterator[list[str]]:
    yield from csv.reader(text.splitlines())


def test_a_frame() -> None:
    """The columns of Python are read, and asked for, in the same way."""
    titles, *rows = lines(HOURS)
    frame = {title: [row[at] for row in rows] for at, title in enumerate(titles)}
    with dmf.read_table(frame, shift=8) as network:
        assert network.solve().value == 16
