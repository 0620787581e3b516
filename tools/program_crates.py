"""The crates that make the program `dmf`, and how long each takes, for build.py."""

from __future__ import annotations

from dataclasses import dataclass, field
from pathlib import Path

ROOT = Path(__file__).resolve().parents[1]
PROGRAM = "dmf"
# The processor seconds that each crate takes with one job, from scratch (`/usr/bin/time rt lib
# --jobs 1`). They decide which crate begins first, and give the time left. Measured on processors
# of 2.5 GHz on 2026-11-25; for half of the crates they are estimates from the size of their proofs.
SECONDS = {
    "dmf_node": 2,
    "dmf_arguments": 75,
    "dmf_state": 85,
    "dmf_history": 40,
    "dmf_links": 55,
    "dmf_path": 190,
    "dmf_text": 160,
    "dmf_streams": 26,
    "dmf_solver": 170,
    "dmf_solving": 36,
    "dmf_session": 104,
    "dmf_explain": 130,
    "dmf_terminal": 55,
    "dmf_progress": 35,
    "dmf_runs": 102,
    "dmf_host": 51,
    "dmf_program": 30,
    "dmf": 95,
}
UNKNOWN_SECONDS = 60


@dataclass
class Crate:
    """A crate of the repository, with the crates below it, direct and indirect."""

    name: str
    libraries: list[str]
    below: list[str] = field(default_factory=list)

    @property
    def folder(self) -> Path:
        return ROOT / "crates" / self.name

    @property
    def is_kept(self) -> bool:
        """Return True if an earlier call has built this library."""
        return (self.folder / "out" / "rlib").is_dir()

    @property
    def seconds(self) -> float:
        return SECONDS.get(self.name, UNKNOWN_SECONDS)

    @property
    def command(self) -> list[str]:
        """Return the command that builds the crate. `rt run` also runs the program, so it gets a
        session without commands, which ends with status 0. One job builds the program in two thirds
        of the time that several need, since each of them loads all crates below."""
        if self.name == PROGRAM:
            return ["rt", "run", "--jobs", "1", "--", "session", str(ROOT / "examples/a.max")]
        return ["rt", "lib"]


def read_crates() -> dict[str, Crate]:
    """Return the program's crate and all crates below it, the lowest first."""
    lines = (
        line.partition("#")[0].partition(":")
        for line in (ROOT / "crates.txt").read_text().splitlines()
    )
    libraries = {name.strip(): rest.split() for name, _, rest in lines if name.strip()}
    crates: dict[str, Crate] = {}

    def add(name: str) -> None:
        if name in libraries and name not in crates:
            crate = Crate(name, libraries[name])
            for library in crate.libraries:
                add(library)
                if library in crates:
                    crate.below += [
                        it for it in [*crates[library].below, library] if it not in crate.below
                    ]
            crates[name] = crate

    add(PROGRAM)
    return crates
