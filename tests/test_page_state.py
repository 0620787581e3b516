"""The modules of a board's page share state only in a store, of which each part has one owner. A
module keeps in variables of its own only what no other module reads."""

from __future__ import annotations

import graphlib
import os
import re
import subprocess
from collections import defaultdict
from pathlib import Path

import pytest
from conftest import ROOT

PAGE = ROOT / "clients/python/dmf/desk/board/page"
SCRIPTS = {path.stem: path.read_text() for path in sorted(PAGE.glob("*.js"))}
# The module that has each store.
STORES = ["store", "import_state"]
# A call that puts a part, and the part, if the call names it.
PUT = re.compile(r"""\b(?:put|update)\((?:"(\w+)")?""")
IMPORTED = re.compile(r'^import (?:[^;]*? from )?"\./(\w+)\.js";', re.MULTILINE)


def judged(path: Path) -> str:
    """What the rule on state says of these scripts."""
    rules = ["--rulesdir", str(ROOT / "tests/eslint_rules"), "--rule", "own-state: error"]
    words = ["eslint", "--no-eslintrc", "-f", "unix", *rules]
    ran = subprocess.run(
        [*words, "--parser-options=ecmaVersion:2022,sourceType:module", path.name],
        cwd=path.parent,
        capture_output=True,
        text=True,
        env={**os.environ, "NODE_PATH": "/usr/share/nodejs"},
    )
    assert ran.returncode in (0, 1), ran.stderr
    return ran.stdout


def test_state_is_in_the_store() -> None:
    assert judged(PAGE) == ""


# Scripts that share state in another way, and what the rule says of each.
WRONG = {
    "export let shown = 0;": "'shown' is exported",
    "let shown = 0;\nexport { shown };": "'shown' is exported",
    "export const ground = { lines: [] };": "'ground' is exported",
    "let shown = 0;\nshown += 1;\nexport const count = () => shown;": "'shown' is returned",
    "let all = null;\nexport function has() {\n  return Boolean(all);\n}": "'all' is returned",
    "const own = { last: 0 };\nexport const last = () => own.last;": "'own' is returned",
    "const own = { it: 0 };\nexport function get() {\n  const { it } = own;\n  return it;\n}": (
        "'own' is returned"
    ),
    "const known = new Map();\nexport const of = (id) => known.get(id);": "'known' is returned",
    "let told = null;\nfunction get() {\n  return told;\n}\nexport { get };": "'told' is returned",
    "let told = null;\nexport function begin(tell) {\n  told = tell;\n}": "'told' stores",
    "const own = {};\nexport const setOwn = (it) => {\n  own.it = it;\n};": "'own' stores",
    "const all = [];\nexport function watch(it) {\n  all.push(it);\n}": "'all' stores",
    "const all = new Set();\nexport function watch(it) {\n  all.add(it);\n}": "'all' stores",
    "const ALL = [];\nexport const note = () => ALL.push(1);": "'ALL' is a constant that changes",
    "let a = 1, b = 2, c = 3, d = 4;": "'a' and others: keep more than 3",
}
RIGHT = """
const MOST = [1, 2], own = { late: [] };
let turn = 0;
const { now, put } = newStore({ view: null });
export { now };
export const most = () => MOST[0];
export function note(by) {
  turn += by;
  own.late.push(turn + by);
  put("view", by);
  return () => turn;
}
export const view = () => now.view;
"""


@pytest.mark.parametrize("script", [*WRONG, RIGHT])
def test_faults_are_found(tmp_path: Path, script: str) -> None:
    (tmp_path / "it.js").write_text(f"{script}\n")
    lines = [line for line in judged(tmp_path / "it.js").splitlines() if "own-state" in line]
    assert len(lines) == len(WRONG.keys() & {script}) and all(WRONG[script] in it for it in lines)


@pytest.mark.parametrize("store", STORES)
def test_each_part_has_one_owner(store: str) -> None:
    """The store describes each part, with its type, and exactly one module puts it."""
    text, owners = SCRIPTS[store], defaultdict(set)
    described = re.findall(r"^ \* @property \{.+\} (\w+) \w", text, flags=re.MULTILINE)
    others = {name for name, script in SCRIPTS.items() if f'from "./{store}.js"' in script}
    for name in others | {store}:
        for part in PUT.findall(SCRIPTS[name].replace("function put(", "")):
            owners[part].add(name)
    assert {part: len(modules) for part, modules in owners.items()} == dict.fromkeys(described, 1)
    assert len(described) == len({*described})


def test_no_cycles() -> None:
    imported = {name: set(IMPORTED.findall(script)) for name, script in SCRIPTS.items()}
    assert len([*graphlib.TopologicalSorter(imported).static_order()]) == len(SCRIPTS)
    assert sum(map(len, imported.values())) > 4 * len(SCRIPTS)
