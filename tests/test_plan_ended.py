"""A desk whose session ends: it is broken off, fails, or cannot be begun again."""

from __future__ import annotations

import re
from collections.abc import Callable
from decimal import Decimal
from pathlib import Path
from typing import Any

import pytest
from built import BUILT
from desk_shared import desk_of, end_session, greatest, run, values, water, water_problem, without
from dmf import Network
from dmf.desk.live_network import LiveNetwork
from dmf.desk.plan.shell import Shell
from dmf.errors import SessionEnded


def test_broken_off_while_made_again(monkeypatch: pytest.MonkeyPatch) -> None:
    """Who stops the desk while its steps are made again on a finer scale, or on a new session, ends
    that too, and no step is lost."""
    desk = desk_of(water_problem())
    desk.close(10)
    make = LiveNetwork.make

    def stopped(held: LiveNetwork, text: str, changes: Any) -> Any:
        if held is not desk.state.network:
            desk.break_off("it was stopped")
        return make(held, text, changes)

    acts: list[Callable[[], object]] = [lambda: desk.cap(11, Decimal("7.5")), desk.begin_again]
    for act in acts:
        with monkeypatch.context() as patched:
            patched.setattr(LiveNetwork, "make", stopped)
            with pytest.raises(SessionEnded, match="it was stopped"):
                act()
        assert [step.value for step in desk.steps] == [165, 155]
    desk.begin_again()
    # Twice as much without the Bridge pipe, and with 15 over Market Street.
    twice = [
        it._replace(capacity=15 if it.name == "Market Street" else 2 * it.capacity)
        for it in water()
        if it.name != "Bridge pipe"
    ]
    assert [str(desk.cap(11, Decimal("7.5")).value * 2), str(desk.network.measure.scale)] == [
        f"{greatest(twice)}.0",
        "10",
    ]
    desk.end()


def test_ended() -> None:
    """A session that ends by itself is reported, and begins again with the steps."""
    desk = desk_of(water_problem())
    desk.close(10)
    end_session()
    with pytest.raises(SessionEnded):
        desk.close(1)
    desk.begin_again()
    assert (desk.value, desk.at) == (155, 2), f"begun again: {desk.value}, {desk.at}"
    desk.end()


@pytest.mark.parametrize(
    "error",
    [
        AssertionError(),
        MemoryError(),
        RecursionError("too deep"),
        KeyError("x"),
        OSError(12, "no memory"),
    ],
)
@pytest.mark.parametrize("changes", [True, False])
def test_unforeseen(
    monkeypatch: pytest.MonkeyPatch,
    capsys: pytest.CaptureFixture[str],
    error: Exception,
    changes: bool,
) -> None:
    """Whatever error comes out of a command, before or after it has changed the session: a line
    tells it, and the steps before it stand."""
    told: list[str] = []
    plan = Shell(desk_of(water_problem()), is_typed=False, write=told.append)
    plan.run_script(["close Bridge pipe", "close Mill Lane", "undo"])
    desk = plan.desk
    before = (
        [(it.text, it.value) for it in desk.steps],
        desk.at,
        list(desk.network.lines),
        desk.value,
        [desk.flow(n) for n in range(1, 15)],
    )
    shut = Network.shut

    def failing(network: Network[Any], node: Any) -> int:
        if changes:
            shut(network, node)
        raise error

    monkeypatch.setattr(Network, "shut", failing)
    for line in 'shut "South Tower"', 'what-if shut "South Tower"':
        plan.onecmd(line)
        said = capsys.readouterr().err
        assert said.count("\n") == 1 and (
            type(error).__name__ in said or str(error) in said
        ), f"{line}: {said!r}"
        assert (
            told[-1]
            == "begun again, with the steps that were made: value 155 litres per second, the "
            "greatest\n"
        )
        after = (
            [(it.text, it.value) for it in desk.steps],
            desk.at,
            list(desk.network.lines),
            desk.value,
            [desk.flow(n) for n in range(1, 15)],
        )
        # What was undone can be made again.
        assert after == before, f"{line}: {after}, and not {before}"
    plan.run_script(["redo", "undo 2"])
    assert [re.findall("[0-9]+", it)[0] for it in told[-2:]] == [
        str(without("Bridge pipe", "Mill Lane")),
        "165",
    ], told
    desk.end()


def test_no_new_session(
    tmp_path: Path, monkeypatch: pytest.MonkeyPatch, capsys: pytest.CaptureFixture[str]
) -> None:
    """Where no new session can be begun, the desk says so, and saves what was done; and it begins
    again once that is possible."""
    program = tmp_path / "dmf"
    program.symlink_to(BUILT)
    monkeypatch.setenv("DMF", str(program))
    told: list[str] = []
    plan = Shell(desk_of(water_problem()), is_typed=False, write=told.append)
    plan.run_script(["close Bridge pipe"])
    end_session()
    program.unlink()
    for _ in range(2):
        plan.onecmd("close Mill Lane")
        said = capsys.readouterr().err
        assert (
            "could not be begun again" in said and "save FILE.max" in said and str(program) in said
        ), said
    plan.run_script(["steps", f"save {tmp_path}/kept.max", f"save {tmp_path}/kept.csv"])
    assert (tmp_path / "kept.max").exists() and not (tmp_path / "kept.csv").exists()
    assert [it.text for it in plan.desk.steps] == ["solve", "close Bridge pipe"]
    program.symlink_to(BUILT)
    assert values(run("dmf-plan", f"{tmp_path}/kept.max", typed="solve\n").stdout) == [155]
    plan.run_script(["close Mill Lane"])
    assert (
        "begun again" in told[-2]
        and f"value {without('Bridge pipe', 'Mill Lane')} litres per second," in told[-1]
    ), told
    plan.desk.end()
