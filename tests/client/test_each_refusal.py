"""Each refusal has an exception of its own, and changes nothing."""

import copy
import pickle
import re
import tempfile
from collections.abc import Callable
from pathlib import Path
from typing import Any

import pytest
from client_shared import PIPES, ROOT, answering, dmf, pipes, script

LARGEST = 2**64 - 1


def test_texts_are_those_of_the_formats() -> None:
    formats, page = (Path(ROOT, "docs", name).read_text() for name in ("FORMATS.md", "SESSION.md"))
    (problem,) = re.findall(r"^1\. its kind: .*?(?=^## Names)", formats, re.MULTILINE | re.DOTALL)
    (session,) = re.findall(r"^\| TEXT \| When \|\n.*?\n\n", page, re.MULTILINE | re.DOTALL)
    for text in dmf.Refused.kinds:
        assert text in " ".join((problem + session).split())
    told = re.findall(r"^\| ([a-z0-9 ,]+) \|", session, re.MULTILINE)
    assert set(dmf.Refused.kinds) >= {text for row in told for text in row.split(", ")}
    assert len(dmf.Refused.kinds) == 25


def refuse(kind: type[dmf.Error], call: Callable[..., object], *arguments: object) -> str:
    """The text with which a call is refused by this kind of error."""
    with pytest.raises(dmf.Error) as caught:
        call(*arguments)
    assert type(caught.value) is kind
    return str(caught.value)


def test_commands() -> None:
    with pipes() as network:
        before = network.problem()
        assert (
            refuse(dmf.NoSuchArc, network.cap, ("lake", "sea"), 1) == "no such arc: ('lake', 'sea')"
        )
        with pipes() as other:
            refuse(dmf.NoSuchArc, network.close, other.arcs[0])
        refuse(dmf.NoSuchNode, network.add, "lake", "see", 1)
        refuse(dmf.NotANumber, network.cap, ("lake", "mill"), -1)
        refuse(dmf.NotANumber, network.cap, ("lake", "mill"), 0.5)
        refuse(dmf.NotANumber, network.cap, ("lake", "mill"), "3")
        refuse(dmf.NumberTooLarge, network.cap, ("lake", "mill"), LARGEST + 1)
        refuse(dmf.NumberTooLarge, network.add, "lake", "mill", 10**5000)
        refuse(dmf.CapacitiesPast64Bits, network.add, "lake", "mill", LARGEST)
        refuse(dmf.CapacitiesPast64Bits, network.cap, ("lake", "mill"), LARGEST)
        refuse(dmf.NothingToUndo, network.undo)
        refuse(dmf.NothingToRedo, network.redo, 2)
        refuse(dmf.FlowIsNotGreatest, network.cut)
        assert (network.problem(), network.undo(0)) == (before, 0)
        network.close(("lake", "mill"))
        message = refuse(dmf.ArcIsClosed, network.cap, ("lake", "mill"), 1)
        assert message == "arc is closed: <Arc 1: 'lake' to 'mill'>"
        refuse(dmf.ArcIsClosed, network.close, ("lake", "mill"))


@pytest.mark.pipe
def test_lines() -> None:
    """Refusals of lines that no method sends, and of numbers that are judged before they are
    sent."""
    lines = {
        dmf.UnknownCommand: "wash",
        dmf.WrongNumberOfFields: "solve 1",
        dmf.LineTooLong: "solve" + " " * 4092,
        dmf.NotANumber: "cap 1 -1",
        dmf.NumberTooLarge: f"cap 1 {LARGEST + 1}",
        dmf.NoSuchArc: "close 6",
        dmf.NoSuchNode: "add 5 1 1",
    }
    with pipes() as network:
        for kind, line in lines.items():
            refuse(kind, network._session.step, tuple(line.split(" ")))
        assert network.solve().value == 5


def test_networks() -> None:
    refuse(dmf.SourceAndSinkAreTheSame, dmf.Network, PIPES, "lake", "lake")
    refuse(dmf.CountOutOfRange, dmf.Network, [("a", "a", 1)], "a", "a")
    message = refuse(
        dmf.CapacitiesPast64Bits, dmf.Network, [("a", "b", 1), ("b", "a", LARGEST)], "a", "b"
    )
    assert message == "capacities past 64 bits: <Arc 2: 'b' to 'a'>"
    message = refuse(dmf.NotANumber, dmf.Network, [("a", "b", 1.5)], "a", "b")
    assert message == (
        "not a number: 1.5 in ('a', 'b', 1.5): a capacity is a whole number from 0 to 2^64 - 1; "
        "for decimals use dmf.read_table, or scale= of Network.from_arrays, Network.from_frame and "
        "the calls on graphs"
    )
    refuse(dmf.NoSuchNode, dmf.Network, PIPES, "lake", "see")


def test_files() -> None:
    head = "p max 2 1\nn 1 s\nn 2 t\n"
    texts = {
        dmf.ProblemLineExpected: ("c nothing\n", 2),
        dmf.SecondProblemLine: ("p max 2 0\np max 2 0\n", 2),
        dmf.UnknownLine: (head + "b 1 2 3\n", 4),
        dmf.NotAMaxProblem: ("p min 2 1\n", 1),
        dmf.WrongNumberOfFields: (head + "a 1 2\n", 4),
        dmf.NotANumber: (head + "a 1 2 x\n", 4),
        dmf.NumberTooLarge: (head + f"a 1 2 {LARGEST + 1}\n", 4),
        dmf.CountOutOfRange: ("p max 1 0\n", 1),
        dmf.NoSuchNode: (head + "a 1 3 1\n", 4),
        dmf.NeitherSourceNorSink: ("p max 2 1\nn 1 x\n", 2),
        dmf.TerminalNamedTwice: ("p max 2 1\nn 1 s\nn 2 s\n", 3),
        dmf.SourceAndSinkAreTheSame: ("p max 2 1\nn 1 s\nn 1 t\n", 3),
        dmf.ArcBeforeSourceAndSink: ("p max 2 1\nn 1 s\na 1 2 3\n", 3),
        dmf.TooManyArcs: (head + "a 1 2 3\n" * 2, 5),
        dmf.TooFewArcs: (head, 4),
        dmf.SourceOrSinkMissing: ("p max 2 0\nn 2 t\n", 3),
        dmf.CapacitiesPast64Bits: (
            head.replace("1\n", "2\n", 1) + f"a 1 2 {LARGEST}\na 1 2 1\n",
            5,
        ),
    }
    with tempfile.TemporaryDirectory() as folder:
        path = f"{folder}/problem.max"
        for kind, (text, line) in texts.items():
            with open(path, "w") as file:
                file.write(text)
            with pytest.raises(dmf.Refused) as caught:
                dmf.read(path)
            assert (type(caught.value), caught.value.line) == (kind, line)
            assert f"line {line}" in str(caught.value)
        with pytest.raises(FileNotFoundError):
            dmf.read(f"{folder}/missing.max")


def test_copies() -> None:
    """An exception that is copied or sent to another process is the same one."""
    for error in (
        dmf.NoSuchArc("'x'"),
        dmf.NoMemory(),
        dmf.Refused.of("too windy", "solve"),
        dmf.NotAnArc("not an arc: ()"),
    ):
        for again in copy.copy(error), pickle.loads(pickle.dumps(error)):
            assert (type(again), str(again), vars(again)) == (type(error), str(error), vars(error))


def test_tracebacks_name_the_package() -> None:
    public = [getattr(dmf, name) for name in dir(dmf)]
    kinds = [kind for kind in public if isinstance(kind, type) and issubclass(kind, BaseException)]
    assert {kind.__module__ for kind in kinds} == {"dmf"}
    assert set(kinds) >= {dmf.Error, dmf.Refused, *dmf.Refused.kinds.values()}


# What a program answers that stands in for dmf: the problem was read, and then one answer to each
# command.


def test_each_text() -> None:
    for text, kind in dmf.Refused.kinds.items():
        with answering(
            f"case $line in solve) echo 'c refused 2 {text}';; *) echo c undo value 7;; esac"
        ) as network:
            with pytest.raises(dmf.Refused) as caught:
                network.solve()
            assert type(caught.value) is kind
            # The session goes on.
            assert network.undo(0) == 7


def test_a_text_that_came_later() -> None:
    with answering("echo c refused 2 too windy") as network:
        with pytest.raises(dmf.Refused, match="^refused: too windy: solve$") as caught:
            network.solve()
        assert (type(caught.value), caught.value.text) == (dmf.Refused, "too windy")


def test_no_answer_that_is_understood() -> None:
    for answer in (
        "echo hello",
        "echo s 5",
        "echo c undo value 5",
        "echo",
        "echo c solve value five",
        "echo c solve",
    ):
        with answering(answer) as network:
            for _ in range(2):
                with pytest.raises(dmf.SessionEnded, match="`solve` was not understood"):
                    network.solve()


def test_no_flow_that_is_understood() -> None:
    """The flows are asked for when one is looked at."""
    five = "for flow in 1 2 3 4 5; do echo"
    for flows in "echo hello", "echo s 6", "echo s five", f"echo s 5; {five} g 1 2 $flow; done":
        with answering(f"case $line in solve) echo c solve value 5;; *) {flows};; esac") as network:
            plan = network.solve()
            assert (plan.value, len(plan)) == (5, 5)
            for _ in range(2):
                with pytest.raises(dmf.SessionEnded, match="`print flow` was not understood"):
                    list(plan.values())
    for line in "f 1 2", "f 1 2 x", "f 1 2 -1", "f 1 2 99999999999999999999", "f 1 2 3 4":
        with answering(
            f"case $line in solve) echo c solve value 5;; *) echo s 5; {five} {line}; done;; esac"
        ) as network:
            plan = network.solve()
            with pytest.raises(
                dmf.SessionEnded, match="was not understood: it does not have a flow"
            ):
                list(plan.values())


def test_the_answer_to_another_command() -> None:
    with answering("echo c close value 3") as network:
        with pytest.raises(dmf.SessionEnded, match="`undo 1` was not understood"):
            network.undo()


def test_no_memory_for_the_problem() -> None:
    with script("echo dmf: no memory >&2; exit 5") as program:
        with pytest.raises(dmf.NoMemory, match="^no memory$"):
            pipes(program=program)


def test_a_problem_is_refused_for_a_reason_that_came_later() -> None:
    with script("echo dmf: line 5: too windy >&2; exit 3") as program:
        with pytest.raises(dmf.Refused, match="^refused: too windy: <Arc 2: 'lake' to 'town'>$"):
            pipes(program=program)


NEAR: list[tuple[Callable[[Any], object], str]] = [
    (lambda network: network.shut("Mil"), "no such node: 'Mil'; is it 'Mill'?"),
    (lambda network: network.shut("mill"), "no such node: 'mill'; is it 'Mill'?"),
    (lambda network: network.shut("harbour"), "no such node: 'harbour'"),
    (lambda network: network.shut("7"), "no such node: '7'; is it 7?"),
    (lambda network: network.shut(8), "no such node: 8; is it '8'?"),
    (lambda network: network.shut(9), "no such node: 9"),
    (lambda network: network.add("Mill", "Twon", 1), "no such node: 'Twon'; is it 'Town'?"),
    (lambda network: network.close("cannal"), "no such arc: 'cannal'; is it 'canal'?"),
    (
        lambda network: network.close(("Town", "Mill")),
        "no such arc: ('Town', 'Mill'); is it ('Mill', 'Town')?",
    ),
    (lambda network: network.close(("Mil", "Town")), "no such arc: ('Mil', 'Town'); is it 'Mill'?"),
    (lambda network: network.flow()["cannal"], "no such arc: 'cannal'; is it 'canal'?"),
    (lambda network: network.arc("river"), "no such arc: 'river'"),
    (
        lambda network: next(dmf.sweep(network, [[("close", "cannal")]])).refusal
        and network.close("cannal"),
        "no such arc: 'cannal'; is it 'canal'?",
    ),
]


@pytest.mark.parametrize("call, wanted", NEAR)
def test_what_was_meant(call: Callable[[Any], object], wanted: str) -> None:
    rows: list[Any] = [("Mill", "Town", 3), ("Town", 7, 2, "canal"), (7, "8", 1)]
    with dmf.Network(rows, "Mill", "8") as network:
        with pytest.raises(dmf.Refused) as caught:
            call(network)
        assert str(caught.value) == wanted


def test_many_names() -> None:
    """Among many names none is looked for."""
    with dmf.Network(
        [(f"n{number}", f"n{number + 1}", 1) for number in range(3_000)], "n0", "n3000"
    ) as network:
        with pytest.raises(dmf.NoSuchNode, match="^no such node: 'n3001'$"):
            network.shut("n3001")
