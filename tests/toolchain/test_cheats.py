"""Cheats the gate, on the toolchain itself and on a crate of one function: a forged store of
proofs, edits that show nothing, and work of another checkout. The toolchain's own count passes each
of them; the gate's says that something failed. A stale library is tried in tests/test_gate.py,
which needs no toolchain. Five wrong bodies of the C library are must-fail edits of dmf_c, which the
gate tries in each run (tests/documents/test_wrong_bodies.py names them)."""

from __future__ import annotations

import os
import shutil
import subprocess
import sys
from pathlib import Path
from typing import NamedTuple

import pytest
from conftest import ROOT

SECONDS = 900
BODY, WRONG = "if a < b { b } else { a }", "if a < b { a } else { b }"
LOW = f"""//! The larger of two numbers.
#![tactic(auto)]

ghost use Rattle.std.specs.Prelude.{{◌≤◌}};

/// Returns the larger of two numbers.
pub fn larger(a: u64, b: u64) -> u64
    ensures first {{ a ≤ result }}
    ensures second {{ b ≤ result }}
{{
    {BODY}
}}
"""
# A test of it, which as root the toolchain runs as nobody.
TESTED = """
#[cfg(test)]
mod tests {
    use super::*;
    use std::test::Fail;

    #[test]
    fn takes_the_second(rt: HostRuntime) -> Result<(), Fail> {
        assert_eq!(rt; larger(1, 2), 2);
        Ok(())
    }
}
"""
# What edits put in place of the body: one that the contract forbids, one that calls what is not
# there, one of another type.
EDITS = {"wrong": "a", "hollow": "a.no_such_method()", "typed": "true"}
# Gives a crate's changed text the proof of the text before it, as anybody could who can write
# into the store.
FORGE = """
import glob, importlib.machinery, importlib.util, json, os, shutil, sys

sys.dont_write_bytecode = True
kit, root = sys.argv[1:]
loader = importlib.machinery.SourceFileLoader("rt", f"{kit}/bin/rt")
rt = importlib.util.module_from_spec(importlib.util.spec_from_loader("rt", loader))
loader.exec_module(rt)
os.chdir(root)
rt.Crate.allowed = rt.handles_of(root)
(crate,) = rt.crates_of(root)
(old,) = glob.glob(f"{rt.STORE}/proof-low-*")
key = rt.Kept([crate]).key(crate)
new = shutil.copytree(old, f"{rt.STORE}/proof-low-{key}")
made = {**json.load(open(f"{new}/made.json")), "key": key}
json.dump(made, open(f"{new}/made.json", "w"))
"""


class Machine(NamedTuple):
    """A view of the toolchain with a store, and a checkout of the crate `low` and of the gate's
    scripts."""

    kit: Path
    root: Path

    def call(self, *words: str) -> tuple[int, list[str]]:
        """The status of a command in the checkout, and the lines that it writes."""
        environment = {**os.environ, "PATH": f"{self.kit / 'bin'}:{os.environ['PATH']}"}
        ran = subprocess.run(
            [*words],
            cwd=self.root,
            env=environment,
            stdout=subprocess.PIPE,
            stderr=subprocess.STDOUT,
            text=True,
            timeout=SECONDS,
        )
        return ran.returncode, ran.stdout.splitlines()

    def write_body(self, body: str) -> None:
        (self.root / "crates/low/src/lib.rt").write_text(LOW.replace(BODY, body))


def write_script(place: Path, text: str) -> None:
    place.parent.mkdir(parents=True, exist_ok=True)
    place.write_text(f"#!/bin/sh\n{text}\n")
    place.chmod(0o755)


@pytest.fixture
def machine(tmp_path: Path) -> Machine:
    """A machine on which the library is made and compared without fail, so that only proofs and
    edits count."""
    ran = subprocess.run([ROOT / "tools/own_kit", tmp_path], capture_output=True, text=True)
    assert ran.returncode == 0, ran.stderr
    # The view has a plain file in the place of a store. This machine has a store.
    (tmp_path / "rattle-kept").unlink()
    it = Machine(tmp_path / "kit", tmp_path / "checkout")
    for name in (
        "prove",
        "HANDLES",
        *(
            f"tools/{name}"
            for name in (
                "count.sh",
                "packages.sh",
                "own_kit",
                "must_fail.py",
                "prove_crates.py",
                "loaded.py",
            )
        ),
    ):
        (it.root / name).parent.mkdir(parents=True, exist_ok=True)
        shutil.copy(ROOT / name, it.root / name)
    write_script(it.root / "tools/library", "exit 0")
    write_script(it.root / "tools/prebuilt", "exit 0")
    (it.root / "tests/toolchain").mkdir(parents=True)
    (it.root / "tests/toolchain/test_one.py").write_text("def test_one() -> None:\n    pass\n")
    (it.root / "tests/conftest.py").write_text(
        "def pytest_unconfigure() -> None:\n    print('1 passed, 0 failed')\n"
    )
    (it.root / "crates.txt").write_text("low:\n")
    (it.root / "crates/low/src").mkdir(parents=True)
    it.write_body(BODY)
    return it


def forge(machine: Machine) -> None:
    """Makes the store say of the present body what was proved of the one before it, so that the
    toolchain believes it."""
    status, lines = machine.call(sys.executable, "-c", FORGE, str(machine.kit), str(machine.root))
    assert status == 0, lines
    status, lines = machine.call("rt", "ci")
    assert (status, lines[-1]) == (0, "1 passed, 0 failed"), lines
    assert any(line.startswith("rt: low is kept: ") for line in lines)


@pytest.mark.seconds(60)
def test_a_forged_store(machine: Machine) -> None:
    """What the toolchain keeps says of a wrong body what was proved of the right one: `rt ci`
    believes its store, and ./prove looks neither there nor into out/. A toolchain that keeps no
    store leaves only out/ to be forged: there the proof of the right body is newer than the wrong
    one."""
    store = machine.kit.parent / "rattle-kept"
    assert machine.call("sh", "-c", "cd crates/low && rt check && rt lib")[0] == 0
    status, lines = machine.call("rt", "ci")
    assert (status, lines[-1]) == (0, "1 passed, 0 failed"), lines
    code = machine.root / "crates/low/src/lib.rt"
    before = code.stat()
    machine.write_body(WRONG)
    os.utime(code, ns=(before.st_atime_ns, before.st_mtime_ns))
    made = [*(machine.root / "crates/low/out").iterdir()]
    assert made and all(it.stat().st_mtime_ns > code.stat().st_mtime_ns for it in made)
    assert store.is_dir() == ("STORE" in (machine.kit / "bin/rt").read_text())
    if store.is_dir():
        forge(machine)
    status, lines = machine.call("./prove")
    # The library, its comparison and the test pass; the crate fails, and so does a log in which
    # nothing is proved.
    assert (status, lines[-1]) == (1, "3 passed, 2 failed"), lines
    assert "rt: low NOT PROVED" in lines


@pytest.mark.seconds(60)
def test_hollow_edits(machine: Machine) -> None:
    """Of three edits two do not reach the prover: the toolchain's count may pass over them, and
    the gate's counts them as failed."""
    for name, body in EDITS.items():
        edit = machine.root / f"crates/low/must-fail/{name}.edit"
        edit.parent.mkdir(exist_ok=True)
        edit.write_text(f"# The clause second.\nfile: src/lib.rt\nold: {BODY}\nnew: {body}\n")
    with open(machine.root / "crates/low/src/lib.rt", "a") as code:
        code.write(TESTED)
    # What another checkout kept of the same crate lies in the store, and in out/.
    assert machine.call("sh", "-c", "cd crates/low && rt check && rt lib")[0] == 0
    status, lines = machine.call("./prove")
    counts = [line for line in lines if line.endswith((" passed, 0 failed", " failed"))]
    # The toolchain's own count, and those of the gate.
    assert counts[0] in ("2 passed, 0 failed", "2 passed, 2 failed")
    assert counts[1:] == [
        "2 passed, 2 failed",
        "1 passed, 0 failed",
        "6 passed, 2 failed",
    ]
    assert "rt: low: its tests passed" in lines
    (goal,) = [line for line in lines if line.startswith("edit low/wrong.edit: ")]
    assert goal == "edit low/wrong.edit: refused at goal returns-clause-second of src/lib.rt:7"
    for name in "hollow", "typed":
        assert (
            f"edit low/{name}.edit: not refused at a goal: it cannot be made, compiled or read"
            in lines
        )
    assert any(line.endswith("modules loaded from before: 0") for line in lines)
