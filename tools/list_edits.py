#!/usr/bin/env python3
"""Print, for each call of the libraries that callers use, which must-fail edit breaks each clause
of its contract.

    python3 tools/list_edits.py [CALL..]

The calls are the functions, the methods of types and the methods of traits that `dmf_net`,
`dmf_text`, `dmf_session` and `dmf_run` export, those of `dmf_program`, through which `main` runs
what its arguments ask for, and the C functions in `dmf_c`. The clauses are what they ensure. An
edit names the clauses that it breaks, in the call itself or in one below it, in lines of the form

    covers: CALL (CLAUSE, ..), CALL, ..

where CALL without clauses means its only clause, which has no name. The gate tries the edits of
must-fail/; those of more-must-fail/ are in brackets. If the gate tries none, the table says why, or
MISSING.
"""

from __future__ import annotations

import argparse
import re
import sys
from collections.abc import Iterator
from pathlib import Path
from typing import NamedTuple

CRATES = Path(__file__).resolve().parents[1] / "crates"
FRONTS = "dmf_net", "dmf_text", "dmf_session", "dmf_run", "dmf_program"
C_FRONT = "dmf_c"
KEPT, MORE = "must-fail", "more-must-fail"

USE = re.compile(r"^pub use ([\w:]+)::(?:\{([^}]*)\}|(\w+));", re.MULTILINE)
BLOCK = re.compile(r"^(pub trait|impl)\b([^{;]*)\{\n(.*?)^\}", re.MULTILINE | re.DOTALL)
FUNCTION = re.compile(r"^( *)(pub )?fn (\w+)(.*?)(?:;$|^\1[{}])", re.MULTILINE | re.DOTALL)
C_FUNCTION = re.compile(
    r'^pub (?:unsafe )?extern "C" fn (\w+)(.*?)(?:^|\) )\{$', re.MULTILINE | re.DOTALL
)
CLAUSE = re.compile(r"^ +ensures (?:(\w+) )?\{", re.MULTILINE)
COVERS = re.compile(r"^covers: (.*)$", re.MULTILINE)
COVERED = re.compile(r"([\w:]+)(?: \(([\w, ]+)\))?(?:, |$)")

# Why no wrong body breaks a clause.
A_LAW = "a law: it holds whatever the body does"
OF_EACH_VALUE = "an invariant: it holds of each value of the type"
OF_ITS_ANSWER = "follows from the clause of what the call answers"
FOR_CALLERS = "for a caller's type to keep: the bodies here do nothing"
READ_ONLY = "a body changes no session without the heap, which it does not get"
C_NUMBERS = {
    "value": "value",
    "source": "node",
    "sink": "node",
    **dict.fromkeys(("past", "future", "arcs", "nodes"), "count"),
}
REASONS = {
    "run_solve (optimal)": A_LAW,
    "run_solve_any (optimal)": A_LAW,
    "run_solve_brief (optimal)": A_LAW,
    "run_solve_watched (optimal)": A_LAW,
    "run_vital (one_text)": A_LAW,
    "run_vital_nodes (one_text)": A_LAW,
    "run_vital_second (one_text)": A_LAW,
    "run_vital_worst (one_text)": A_LAW,
    "run_vital_worst_nodes (one_text)": A_LAW,
    "run_vital_worst_pairs (one_text)": A_LAW,
    "write_problem (stands)": A_LAW,
    "Side::eq (same)": OF_ITS_ANSWER,
    "Side::ids (ascending)": OF_ITS_ANSWER,
    "State::eq (same)": OF_ITS_ANSWER,
    "Lines::new (len)": OF_ITS_ANSWER,
    "Refusal::text (short)": OF_ITS_ANSWER,
    "refusal_text (short)": OF_ITS_ANSWER,
    "Session::step (optimal)": OF_ITS_ANSWER,
    "Session::step_watched (optimal)": OF_ITS_ANSWER,
    "dmf_abi": "a number that the contract and the body have alike; a test compares it with the "
    "header",
    "dmf_version": "a number that the contract and the body have alike; a test compares it with "
    "the other "
    "versions",
    "Session::new": "a body has no other history to give than the one that it gets",
    "Session::history": "a body has no other history to lend than its own",
    **{
        f"dmf_session_{call} (unchanged)": READ_ONLY
        for call in (*C_NUMBERS, "flows", "capacities", "arc_range", "moved")
    },
    "Files::open": FOR_CALLERS,
    "Runner::run (task)": FOR_CALLERS,
    "Runner::run (runs)": FOR_CALLERS,
}
# Clauses that are so simple that the gate leaves out their edits.
ONE_FIELD = "left out, since the body gives or sets one field"
LEFT_OUT = {
    *(f"State::{field} (value)" for field in ("nodes", "source", "sink", "arcs", "flows")),
    *(
        f"{history}::{field} (count)"
        for history in ("History", "Session")
        for field in ("past", "bound")
    ),
    *(
        f"{stream}::new ({part})"
        for stream in ("StdSource", "StdSink")
        for part in ("bytes", "mark")
    ),
    *("Source::read (mark)", "Sink::put (mark)", "Sink::flush (mark)"),
    *(f"dmf_session_{call} ({name})" for call, name in C_NUMBERS.items()),
    *(
        "Side::new",
        "Side::capacity",
        "Arc::with_cap",
        "Arc::closed",
        "LineBuffer::as_bytes",
        "Direction::step",
        "Direction::cap",
    ),
}
# Clauses that are broken like those of another call, for which the gate tries an edit.
AS_ANOTHER = "left out, since the gate tries the like for another call"
LIKE_OTHERS = {
    "dmf_session_flows (answer)",
    *(f"dmf_session_capacities ({name})" for name in ("answer", "filled", "refused")),
    *(f"dmf_session_arc_losses ({name})" for name in ("answer", "refused")),
    *(f"dmf_session_node_losses ({name})" for name in ("answer", "filled")),
    "dmf_session_pair_losses (refused)",
    *(f"dmf_session_worst_{parts} (answer)" for parts in ("arcs", "nodes", "pairs")),
    *(f"dmf_session_worst_{parts} (refused)" for parts in ("nodes", "pairs")),
    *(
        f"dmf_session_{call} (unchanged)"
        for call in (
            *("side", "arc_losses", "node_losses", "pair_losses"),
            *("worst_arcs", "worst_nodes", "worst_pairs", "second_gains", "new_arc_gains"),
            *("problem", "solution"),
        )
    ),
    *(
        f"dmf_session_{call}_until (refused)"
        for call in ("arc_losses", "pair_losses", "worst_nodes", "worst_pairs")
    ),
    *(
        f"dmf_session_{call}_until (unchanged)"
        for call in (
            *("node_losses", "pair_losses", "second_gains", "new_arc_gains"),
            *("worst_arcs", "worst_nodes", "worst_pairs"),
        )
    ),
}
# A clause which says that the value that a call reads is one of its type.
INVARIANT = re.compile(
    r"ensures (\w+) \{ (?:IsState self\.now|IsTimeline \((?:H\.)?timeline self\.now\)) \}"
)


class Clause(NamedTuple):
    """A clause of a call's contract. Its name is empty if the contract gives it none."""

    call: str
    name: str

    def __str__(self) -> str:
        return f"{self.call} ({self.name})" if self.name else self.call


class Home(NamedTuple):
    """Where a clause stands: the file, and the head of the call."""

    file: Path
    head: str


class Edits(NamedTuple):
    """The edits that break a clause: those that the gate tries, and those that it leaves out."""

    kept: list[str]
    more: list[str]


def exports(crate: str) -> Iterator[tuple[str, str]]:
    """Yield what a crate exports: the crate or module that it takes each name from, and the
    name."""
    for use in USE.finditer((CRATES / crate / "src" / "lib.rt").read_text()):
        for name in (use[2] or use[3]).split(","):
            if name.strip():
                yield use[1], name.strip()


def home_of(crate: str, name: str) -> str:
    """Return the crate that defines a name which this crate exports."""
    source = next(source for source, exported in exports(crate) if exported == name)
    return home_of(source, name) if (CRATES / source).is_dir() else crate


def type_of(about: str) -> str:
    """Return the name of the type or the trait that a block is about, from the block's head."""
    about = about.rpartition(" for ")[2]
    while "<" in about:
        about = re.sub(r"<[^<>]*>", "", about)
    return about.partition(":")[0].strip()


def functions(text: str, indent: str, is_public: bool) -> Iterator[tuple[str, str]]:
    """Yield the names and heads of the functions of a text at this depth: the public ones, or
    all."""
    for function in FUNCTION.finditer(text):
        if function[1] == indent and (function[2] or not is_public):
            yield function[3], function[4]


def calls_of(file: Path, name: str) -> Iterator[tuple[str, str]]:
    """Yield the calls in a file, with their heads, that a user of this name can make."""
    text = file.read_text()
    yield from ((name, head) for function, head in functions(text, "", True) if function == name)
    for kind, about, inside in BLOCK.findall(text):
        if type_of(about) == name:
            is_public = kind == "impl" and " for " not in about
            yield from (
                (f"{name}::{function}", head)
                for function, head in functions(inside, "    ", is_public)
            )


def c_calls() -> Iterator[tuple[Path, str, str]]:
    """Yield the C functions: the file, the name and the head of each."""
    for file in sorted((CRATES / C_FRONT / "src").glob("*.rt")):
        yield from ((file, name, head) for name, head in C_FUNCTION.findall(file.read_text()))


def front_clauses() -> dict[Clause, Home]:
    """Return the clauses of all calls of the fronts."""
    found = {
        Clause(name, clause): Home(file, head)
        for file, name, head in c_calls()
        for clause in CLAUSE.findall(head)
    }
    for front in FRONTS:
        for _, name in exports(front):
            for file in sorted((CRATES / home_of(front, name) / "src").rglob("*.rt")):
                for call, head in calls_of(file, name):
                    found.update(
                        {Clause(call, clause): Home(file, head) for clause in CLAUSE.findall(head)}
                    )
    return found


def covered_by(edit: Path) -> Iterator[Clause]:
    """Yield the clauses that an edit says that it breaks."""
    for line in COVERS.findall(edit.read_text()):
        at = 0
        for match in COVERED.finditer(line):
            if match.start() != at:
                break
            at = match.end()
            yield from (Clause(match[1], name) for name in (match[2] or "").split(", "))
        if at != len(line):
            raise ValueError(f"{edit}: not of the form CALL (CLAUSE, ..), ..: {line[at:]}")


def covering() -> dict[Clause, Edits]:
    """Return the edits that break each clause."""
    found: dict[Clause, Edits] = {}
    for part, is_kept in ((KEPT, True), (MORE, False)):
        for edit in sorted(CRATES.glob(f"*/{part}/*.edit")):
            for clause in covered_by(edit):
                edits = found.setdefault(clause, Edits([], []))
                (edits.kept if is_kept else edits.more).append(f"{edit.parts[-3]}/{edit.stem}")
    return found


def reason(clause: Clause, home: Home, has_edit: bool) -> str:
    """Return why the gate tries no edit for a clause, or '' if it should."""
    if has_edit:
        return (
            ONE_FIELD
            if str(clause) in LEFT_OUT
            else AS_ANOTHER
            if str(clause) in LIKE_OTHERS
            else ""
        )
    if home.file.name == "laws.rt":
        return A_LAW
    if clause.name in INVARIANT.findall(home.head):
        return OF_EACH_VALUE
    return REASONS.get(str(clause), "")


def told(clause: Clause, home: Home, edits: Edits) -> str:
    """Return the edits that break a clause, in brackets those that the gate leaves out. If it tries
    none, return why, or that an edit is missing."""
    names = [*edits.kept, *(f"[{edit}]" for edit in edits.more)]
    if not edits.kept:
        names.append(reason(clause, home, bool(edits.more)) or "MISSING")
    return ", ".join(names)


def rows(
    clauses: dict[Clause, Home], edits: dict[Clause, Edits], wanted: list[str]
) -> Iterator[str]:
    """Yield the lines of the table, for these calls or for all."""
    for clause, home in clauses.items():
        if not wanted or clause.call in wanted:
            yield (
                f"| `{clause.call}` | {clause.name} | "
                f"{told(clause, home, edits.get(clause, Edits([], [])))} |"
            )


def main() -> None:
    parser = argparse.ArgumentParser(description=(__doc__ or "").splitlines()[0])
    parser.add_argument(
        "calls",
        nargs="*",
        metavar="CALL",
        help="a call, such as State::push_arc; all where none is named",
    )
    wanted = parser.parse_args().calls
    clauses, edits = front_clauses(), covering()
    for call in {*wanted} - {clause.call for clause in clauses}:
        sys.exit(f"list_edits.py: callers have no call {call} with a contract")
    for clause in edits.keys() - clauses.keys():
        sys.exit(
            f"list_edits.py: {', '.join([*edits[clause].kept, *edits[clause].more])} covers "
            f"{clause}, and callers have no such clause"
        )
    for name in {*REASONS, *LEFT_OUT, *LIKE_OTHERS} - {*map(str, clauses)}:
        sys.exit(f"list_edits.py: it gives a reason for {name}, and callers have no such clause")
    print("| Call | Clause | Edits |\n| --- | --- | --- |", *rows(clauses, edits, wanted), sep="\n")


if __name__ == "__main__":
    main()
