"""What tools/dmf-plan saves and draws: problems, tables, pictures; and which files it refuses."""

from __future__ import annotations

import tempfile
from pathlib import Path

import pytest
from desk_shared import ODD, PIPES, desk_of, run, values, water_problem
from dmf.desk.plan.shell import Shell


def test_files() -> None:
    """What is saved is a problem, a table and a picture; and which files are refused."""
    with tempfile.TemporaryDirectory() as folder:
        table = Path(folder, "odd.csv")
        table.write_text(
            f'from,to,litres,pipe\nA,"{ODD.replace(chr(34), chr(34) * 2)}",5,x\n'
            f'"{ODD.replace(chr(34), chr(34) * 2)}",C,3,\n'
        )
        quoted = ODD.replace('"', '""')
        typed = (
            f'solve\nshut "{quoted}"\nopen "{quoted}"\nsolve\nsave {folder}/plan.max\nsave '
            f"{folder}/plan.csv\ndraw {folder}/plan.dot\n"
        )
        ran = run("dmf-plan", str(table), typed=typed)
        assert (ran.returncode, values(ran.stdout)[-1:]) == (0, [3]), f"an odd name: {ran}"
        saved = Path(folder, "plan.max").read_bytes()
        assert f"c node 2 {ODD}".encode() in saved, f"the names of a saved problem: {saved!r}"
        again = run("dmf-plan", f"{folder}/plan.max", typed="solve\n")
        assert values(again.stdout) == [3], f"a saved problem: {again}"
        assert b"digraph" in Path(folder, "plan.dot").read_bytes()
        rows = Path(folder, "plan.csv").read_text().splitlines()
        assert (len(rows), rows[0]) == (
            3,
            "number,name,from,to,flow (litres),capacity (litres),full,in cut",
        ), f"a saved table: {rows}"
        for name, text, status, told in (
            ("two.csv", "A,C,1\nB,C,1\n", 3, '--source "A", as often'),
            ("two.csv", "A,C,1\nB,C,1\n", 3, "from? Nothing leads to any of these: 'A', 'B'; "),
            ("ring.csv", "A,B,1\nB,A,1\n", 3, "from? Each place has something that leads to it"),
            ("bad.csv", "A,B,x y\nB,C,1.5\n", 3, "'x y' is not a number"),
            ("bad.max", "p max 2 1\nn 1 s\nn 2 t\na 1 2 x\n", 3, "not a number"),
        ):
            Path(folder, name).write_text(text)
            ran = run("dmf-plan", f"{folder}/{name}")
            assert (
                ran.returncode == status and told in ran.stderr and "Traceback" not in ran.stderr
            ), f"{name}: {ran}"
        ran = run("dmf-plan", f"{folder}/missing.csv")
        assert ran.returncode == 4, f"a missing file: {ran}"
        ran = run(
            "dmf-plan", f"{folder}/two.csv", "--source", "A", "--source", "B", typed="solve\n"
        )
        assert values(ran.stdout) == [2], f"two sources: {ran}"
    assert run("dmf-plan").returncode == 2


def test_no_picture(tmp_path: Path, monkeypatch: pytest.MonkeyPatch) -> None:
    """Where Graphviz fails, a picture is refused in its words, and there is no file."""
    dot = tmp_path / "dot"
    dot.write_text("#!/bin/sh\necho 'no such font' >&2\nexit 1\n")
    dot.chmod(0o755)
    monkeypatch.setenv("PATH", str(tmp_path), prepend=":")
    ran = run("dmf-plan", PIPES, typed=f"draw {tmp_path}/plan.svg\n")
    assert ran.returncode == 1 and ran.stderr.rstrip().endswith(
        "Graphviz did not draw it: no such font"
    ), ran
    assert not (tmp_path / "plan.svg").exists()


def test_no_other_file(tmp_path: Path, monkeypatch: pytest.MonkeyPatch) -> None:
    """What somebody else puts at the path of a new file, after it was found to be free, stays as it
    is."""
    plan = Shell(desk_of(water_problem()), is_typed=False, write=lambda _: None)
    victim, path = tmp_path / "victim.max", tmp_path / "new.max"
    victim.write_text("as it was")
    files = plan._context.files
    put = files.put

    def late(path: str, data: bytes) -> str:
        Path(path).symlink_to(victim)
        return put(path, data)

    monkeypatch.setattr(files, "put", late)
    plan.onecmd(f"save {path}")
    assert (victim.read_text(), plan.refused) == ("as it was", 1)
    monkeypatch.undo()
    path.unlink()
    # Its own file it writes as often as it is asked.
    plan.run_script([f"save {path}", f"save {path}"])
    assert (plan.refused, path.read_text().count("p max")) == (1, 1)
    plan.desk.end()
