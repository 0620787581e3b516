"""Tests tools/dmf-dot: its texts for Graphviz against texts that were worked out by hand, what it
says of faults, how it ends, and, where Graphviz is there, what that shows of names, and the
pictures in docs/pictures against freshly made ones, which `--write` rewrites."""

from __future__ import annotations

import html
import os
import re
import signal
import subprocess
from collections.abc import Sequence
from pathlib import Path

import pytest
from built import heed_interrupts
from conftest import BUILT, ROOT
from limits import SECONDS
from pictures_rows import CHAIN, DRAWN, FAULTS, HEAD, LINE, LITERAL, SESSION_FAULTS, SESSIONS, WAYS
from tool_runs import Tools, put, wait_until_read

TOOL = str(ROOT / "tools" / "dmf-dot")
# What writes the problem of each picture. What is drawn is its solution with the cut.
PICTURES = {
    "town": "cat examples/town.max",
    "water": "tools/dmf-problem Reservoir Harbour <examples/water/pipes.csv",
    "rota": "tools/dmf-problem --shift 8 --daily 1 <examples/rota/rota.csv",
    "supply": (
        "grep -v 'East Depot' examples/supply/routes.csv"
        " | tools/dmf-problem --sources /dev/fd/3 --sinks examples/supply/orders.csv 3<<END\n"
        "$(grep -v 'East Depot' examples/supply/stock.csv)\nEND"
    ),
}


def draw(
    tools: Tools,
    folder: Path,
    problem: str,
    answers: Sequence[str],
    words: Sequence[str] = (),
    commands: str | None = None,
) -> tuple[int, str, str]:
    """Draws texts, which are put into files. Gives the status, what is written, and what is
    told."""
    texts = {
        "problem": problem,
        **{f"answer{place or ''}": text for place, text in enumerate(answers)},
    }
    given = ["--commands", "commands"] if commands is not None else []
    ran = tools.run(
        "dmf-dot", folder, [*words, *given, *texts], b"", {**texts, "commands": commands or ""}
    )
    return ran.status, ran.out.decode(), ran.err.decode()


@pytest.mark.parametrize("name", DRAWN)
def test_drawn(tools: Tools, tmp_path: Path, name: str) -> None:
    problem, answers, words, wanted = DRAWN[name]
    assert draw(tools, tmp_path, problem, answers, words)[1] == HEAD + wanted + "}\n"


@pytest.mark.parametrize(("problem", "answer", "told"), FAULTS)
def test_faults(tools: Tools, tmp_path: Path, problem: str, answer: str, told: str) -> None:
    assert draw(tools, tmp_path, problem, [answer] if answer else []) == (
        3,
        "",
        f"dmf-dot: {told}\n",
    )


def test_too_many_arcs(tools: Tools, tmp_path: Path) -> None:
    told = (
        "dmf-dot: 4 arcs are too many to draw. With a cut, as from `dmf solve --cut`, the arcs "
        "nearest the cut are drawn\n"
    )
    assert draw(tools, tmp_path, CHAIN, [], ["--most", "3"]) == (3, "", told)


def test_missing_file(tools: Tools, tmp_path: Path) -> None:
    assert draw(tools, tmp_path, LINE, [], ["missing"])[:2] == (4, "")


@pytest.mark.parametrize("name", SESSIONS)
def test_sessions(tools: Tools, tmp_path: Path, name: str) -> None:
    """Sessions are drawn as they end."""
    commands, answer, notes, wanted = SESSIONS[name]
    _, drawn, told = draw(tools, tmp_path, WAYS, [answer], (), commands)
    assert (drawn, told) == (HEAD + wanted + "}\n", "".join(f"dmf-dot: {note}\n" for note in notes))


@pytest.mark.parametrize(("commands", "answer", "told"), SESSION_FAULTS)
def test_session_faults(
    tools: Tools, tmp_path: Path, commands: str | None, answer: str, told: str
) -> None:
    assert draw(tools, tmp_path, LINE, [answer], (), commands) == (3, "", f"dmf-dot: {told}\n")


def test_place_of_commands(tools: Tools, tmp_path: Path) -> None:
    """The commands may stand between the problem and the answer."""
    commands, answer, told = SESSION_FAULTS[-1]
    files = {"problem": LINE, "commands": commands or "", "answer": answer}
    ran = tools.run(
        "dmf-dot", tmp_path, ["problem", "--commands", "commands", "answer"], b"", files
    )
    assert ran.err.decode() == f"dmf-dot: {told}\n"


@pytest.mark.parametrize(("is_closed", "status"), [(False, 130), (True, -signal.SIGPIPE)])
def test_ends(tmp_path: Path, is_closed: bool, status: int) -> None:
    """At Ctrl-C it ends with 130, and where nobody reads on by the signal of that, each time
    without a word."""
    put(tmp_path / "problem", LINE)
    reader, writer = os.pipe()
    os.close(reader)
    ran = subprocess.Popen(
        [TOOL, "problem", "-"],
        cwd=tmp_path,
        stdin=subprocess.PIPE,
        stdout=writer if is_closed else subprocess.DEVNULL,
        stderr=subprocess.PIPE,
        preexec_fn=heed_interrupts,
    )
    os.close(writer)
    assert ran.stdin
    ran.stdin.write(b"s 7\n")
    ran.stdin.flush()
    wait_until_read(ran)
    if not is_closed:
        ran.send_signal(signal.SIGINT)
    assert (ran.communicate(timeout=SECONDS)[1], ran.returncode) == (b"", status)


def solved(command: str, folder: Path) -> tuple[str, bytes]:
    """What `dmf` answers to the problem that a command writes, and the text of its picture."""
    made = subprocess.run(
        command, shell=True, capture_output=True, check=True, timeout=SECONDS
    ).stdout
    put(folder / "problem", made)
    answer = subprocess.run(
        [BUILT, "solve", "--cut"], input=made, capture_output=True, check=True, timeout=SECONDS
    ).stdout
    words = [TOOL, str(folder / "problem"), "-"]
    return (
        answer.decode(),
        subprocess.run(
            words, input=answer, capture_output=True, check=True, timeout=SECONDS
        ).stdout,
    )


def test_large(tmp_path: Path) -> None:
    """A problem of some thousand arcs: the arcs of its cut are drawn, and what can be told of their
    flows is."""
    answer, text = solved("cat examples/levels.max", tmp_path)
    lines = [line for line in text.decode().splitlines() if "->" in line]
    flows = [line.split(" [")[1].split('"')[1].split("/") for line in lines if "c62828" in line]
    told = re.search("^c cut ([0-9]+)$", answer, re.MULTILINE)
    assert told and sum(int(flow) for flow, capacity in flows if flow == capacity) == int(told[1])
    assert len(lines) == 300


def svg(text: bytes) -> str:
    return subprocess.run(
        ["dot", "-Tsvg"], input=text, capture_output=True, check=True, timeout=SECONDS
    ).stdout.decode()


def texts(picture: str) -> list[str]:
    """The text elements of a picture, in any order: versions of Graphviz differ in all else."""
    return sorted(re.findall(r"<text[^>]*>([^<]*)</text>", picture))


@pytest.mark.parametrize("name", LITERAL)
def test_literal(tools: Tools, tmp_path: Path, name: str) -> None:
    """Graphviz shows each name as it is."""
    drawn = draw(tools, tmp_path, f"c node 1 {name}\nc arc 1 {name}\n" + LINE, [])[1]
    shown = [html.unescape(one).replace("\xa0", " ") for one in texts(svg(drawn.encode()))]
    assert shown.count(LITERAL[name]) == 2, shown


@pytest.mark.parametrize("name", PICTURES)
def test_pictures(tmp_path: Path, writes: bool, name: str) -> None:
    page = ROOT / "docs" / "pictures" / f"{name}.svg"
    made = svg(solved(PICTURES[name], tmp_path)[1])
    if writes:
        page.write_text(made)
    assert texts(page.read_text()) == texts(made), "--write rewrites it"
