"""dmf.hpp, and what CMake and pkg-config find where ./install puts the library. Each program is
built with all warnings as errors, and runs under the sanitizers of addresses and of undefined
behaviour."""

from __future__ import annotations

import os
import re
import shutil
import subprocess
from collections.abc import Iterator, Mapping
from pathlib import Path
from types import MappingProxyType

import networkx
import pytest
import scipy.sparse
from c_library import HEADER, ROOT, compiled, header_calls, library_folder
from dmf.session.statuses import FAULTS, REASONS
from limits import SECONDS
from make_network import problem_of
from oracle import changes
from oracle.problem import read_problem

EXAMPLE = ROOT / "examples/cpp"
HEADER_CPP = HEADER.with_suffix(".hpp")
SANITIZED = ["-fsanitize=address,undefined", "-fno-sanitize-recover=all"]
WARNINGS = ["-Wall", "-Wextra", "-Wpedantic", "-Wshadow", "-Wconversion", "-Werror"]
FLAGS = [*WARNINGS, *SANITIZED]


def run(
    *words: str | Path, folder: Path = ROOT, paths: Mapping[str, str] = MappingProxyType({})
) -> subprocess.CompletedProcess[str]:
    """Run a command; `paths` are added to the environment."""
    return subprocess.run(
        words,
        cwd=folder,
        env={**os.environ, **paths},
        stdin=subprocess.DEVNULL,
        capture_output=True,
        text=True,
        timeout=SECONDS,
    )


def ran(
    *words: str | Path, folder: Path = ROOT, paths: Mapping[str, str] = MappingProxyType({})
) -> str:
    """Run a command that has to end well, and return what it writes."""
    done = run(*words, folder=folder, paths=paths)
    assert done.returncode == 0, f"{words}: {done.stdout}{done.stderr}"
    return done.stdout


@pytest.fixture(scope="module")
def prefix(tmp_path_factory: pytest.TempPathFactory) -> Path:
    """What ./install put, moved to another folder."""
    first = tmp_path_factory.mktemp("first") / "prefix"
    moved = tmp_path_factory.mktemp("moved") / "a prefix"
    ran("./install", "--prefix", first)
    shutil.move(first, moved)
    return moved


def expected(problem: Path) -> str:
    """Return what the example prints, by networkx, and for flows by the second implementation."""
    lines = [line.split() for line in problem.read_text().splitlines()]
    ends = {words[2]: words[1] for words in lines if words[0] == "n"}
    arcs = [(words[1], words[2], int(words[3])) for words in lines if words[0] == "a"]

    def value(present: list[tuple[str, str, int]]) -> int:
        graph = networkx.DiGraph()
        graph.add_nodes_from(ends.values())
        for tail, head, capacity in present:
            before = graph.get_edge_data(tail, head, {"capacity": 0})["capacity"]
            graph.add_edge(tail, head, capacity=before + capacity)
        return int(networkx.maximum_flow_value(graph, ends["s"], ends["t"]))

    whole = value(arcs)
    losses = [
        (whole - value(arcs[:index] + arcs[index + 1 :]), index + 1) for index in range(len(arcs))
    ]
    worst = sorted((loss for loss in losses if loss[0] > 0), key=lambda loss: (-loss[0], loss[1]))
    return "".join(
        [
            f"maximum flow: {whole}\n",
            *(f"without arc {arc}: {units} less\n" for units, arc in worst[:10]),
            f"arc {worst[0][1]} is closed: {whole - worst[0][0]}\n",
            *neighbours(problem, worst[0][1]),
        ]
    )


def neighbours(problem: Path, closed: int) -> Iterator[str]:
    """Yield a line for each arc that meets a closed one, with what it carries now, and before."""
    before = changes.solve(read_problem(problem.read_bytes()))
    now = changes.solve(changes.close(before, closed))
    ends = {*now.arcs[closed - 1][:2]}
    for number, arc in enumerate(now.arcs, 1):
        if number != closed and not ends.isdisjoint(arc[:2]):
            carried = f"{now.flows[number - 1]}, was {before.flows[number - 1]}"
            yield f"arc {number} from {arc.tail} to {arc.head}: {carried}\n"


# A problem whose solve takes a fifth of a second or more, and how long the example may take for it,
# in seconds: the timer then stops it, or never does. On a busy machine the timer may come too late,
# so it is tried a few times.
LONG, SOON, LATE, TRIES = (150, 150, 3, 1_000_000, 1990), "0.01", "1000", 9


def judge_example(program: Path, paths: Mapping[str, str] = MappingProxyType({})) -> None:
    for name in "a.max", "town.max":
        problem = ROOT / "examples" / name
        assert ran(program, problem, paths=paths) == expected(problem)
    broken = run(program, ROOT / "README.md", paths=paths)
    assert (broken.returncode, broken.stdout) == (1, "")
    assert broken.stderr.startswith("vital: dmf: line 1: ")
    missing = run(program, "/nowhere", paths=paths)
    assert (missing.returncode, missing.stderr) == (1, "vital: /nowhere cannot be read\n")


def judge_timer(program: Path, folder: Path) -> None:
    """What the timer stops goes on, and all else is as without a timer. The greatest value is that
    of scipy."""
    text = problem_of(*LONG)
    problem = folder / "long.max"
    problem.write_text(text)
    lines = [line.split() for line in text.splitlines()]
    tails, heads, capacities = zip(*(map(int, words[1:]) for words in lines if words[0] == "a"))
    ends = [int(words[1]) - 1 for kind in "st" for words in lines if words[2:] == [kind]]
    (count,) = (int(words[2]) for words in lines if words[0] == "p")
    places = [tail - 1 for tail in tails], [head - 1 for head in heads]
    matrix = scipy.sparse.coo_matrix((capacities, places), (count, count), "int32").tocsr()
    value = scipy.sparse.csgraph.maximum_flow(matrix, *ends).flow_value
    told = ran(program, problem, LATE)
    assert told.startswith(f"maximum flow: {value}\nwithout arc ")
    stopped = f"stopped, and as before: 0 of {value}\n{told}"
    tries = [ran(program, problem, SOON)]
    while tries[-1] != stopped and len(tries) < TRIES:
        tries.append(ran(program, problem, SOON))
    assert tries[-1] == stopped and {*tries[:-1]} <= {told}


def build(source: Path, folder: Path, *words: str) -> None:
    """Configure and build a project by CMake."""
    ran("cmake", "-S", source, "-B", folder, *words)
    ran("cmake", "--build", folder)


def test_the_example_by_cmake(prefix: Path, tmp_path: Path) -> None:
    """The file for CMake finds the library and the header below the moved prefix."""
    build(
        EXAMPLE, tmp_path, f"-DCMAKE_PREFIX_PATH={prefix}", f"-DCMAKE_CXX_FLAGS={' '.join(FLAGS)}"
    )
    judge_example(tmp_path / "vital")
    judge_timer(tmp_path / "vital", tmp_path)
    linked = ran("ldd", tmp_path / "vital")
    assert f"libdmf.so.0 => {prefix}/lib/libdmf.so.0" in linked


def test_the_example_by_pkg_config(prefix: Path, tmp_path: Path) -> None:
    """By the words at the top of the example, in a shell, which parts what pkg-config prints at
    each space: so the prefix is named by a link."""
    link = tmp_path / "prefix"
    link.symlink_to(prefix)
    where = {"PKG_CONFIG_PATH": f"{link}/lib/pkgconfig"}
    assert ran("pkg-config", "--modversion", "dmf", paths=where) == (ROOT / "VERSION").read_text()
    (words,) = re.findall(
        r"^// +(c\+\+ .*) -o vital && ", (EXAMPLE / "vital.cpp").read_text(), re.MULTILINE
    )
    command = f"{words} -o {tmp_path}/vital {' '.join(FLAGS)}"
    ran("sh", "-ec", command, folder=EXAMPLE, paths=where)
    judge_example(tmp_path / "vital", {"LD_LIBRARY_PATH": f"{link}/lib"})


# The project of the example in C.
IN_C = """cmake_minimum_required(VERSION 3.13)
project(limit LANGUAGES C)
find_package(dmf REQUIRED)
add_executable(limit limit.c)
target_link_libraries(limit PRIVATE dmf::dmf)
"""


def test_the_example_in_c(prefix: Path, tmp_path: Path) -> None:
    """By CMake, and by pkg-config, with the shared library and as a static program."""
    link = tmp_path / "prefix"
    link.symlink_to(prefix)
    where = {"PKG_CONFIG_PATH": f"{link}/lib/pkgconfig", "LD_LIBRARY_PATH": f"{link}/lib"}
    shutil.copy(ROOT / "examples/c/limit.c", tmp_path)
    (tmp_path / "CMakeLists.txt").write_text(IN_C)
    words = f"-DCMAKE_C_FLAGS={' '.join(FLAGS)}"
    build(tmp_path, tmp_path / "built", f"-DCMAKE_PREFIX_PATH={prefix}", words)
    for flags, asked in (FLAGS, ""), ([*WARNINGS, "-static"], "--static"):
        found = f"$(pkg-config {asked} --cflags --libs dmf)"
        command = f"cc limit.c {' '.join(flags)} {found} -o limit{asked}"
        ran("sh", "-ec", command, folder=tmp_path, paths=where)
    for program in "built/limit", "limit", "limit--static":
        told = ran(tmp_path / program, paths=where)
        assert told.endswith("without arc 1: 2\nagain: 5\n"), program
    assert "no dynamic section" in ran("readelf", "-d", tmp_path / "limit--static")


def test_a_static_library_by_cmake(prefix: Path, tmp_path: Path) -> None:
    project = tmp_path / "project"
    shutil.copytree(EXAMPLE, project)
    lists = project / "CMakeLists.txt"
    lists.write_text(lists.read_text().replace("dmf::dmf", "dmf::static"))
    words = f"-DCMAKE_CXX_FLAGS={' '.join(FLAGS)}"
    build(project, tmp_path / "built", f"-DCMAKE_PREFIX_PATH={prefix}", words)
    judge_example(tmp_path / "built/vital")
    assert "libdmf" not in ran("ldd", tmp_path / "built/vital")


def test_the_example_is_short() -> None:
    assert len((EXAMPLE / "vital.cpp").read_text().splitlines()) <= 60


@pytest.mark.parametrize("standard", ["-std=c++17", "-std=c++20", "-std=c++23"])
def test_every_call(tmp_path: Path, standard: str) -> None:
    """The program judges by itself; at its end it prints the words of each status and fault, which
    are those of the program's."""
    program = compiled(
        ["g++", standard, *FLAGS],
        Path(__file__).with_name("every_call.cpp"),
        library_folder(),
        tmp_path,
    )
    lines = ran(program).splitlines()
    assert {number: lines[number] for number in REASONS} == REASONS
    assert lines[17:] == [*FAULTS[:-1]] and "unknown" not in "".join(lines[:17])


def test_memory_refused(tmp_path: Path) -> None:
    """Each of the calls that it makes throws std::bad_alloc."""
    source = Path(__file__).with_name("no_memory.cpp")
    program = compiled(["g++", "-std=c++17"], source, library_folder(), tmp_path)
    assert ran(program) == "30\n"


def test_each_call_and_number_of_the_c_header() -> None:
    """dmf.hpp makes each call of dmf.h, and has each status and each fault."""
    c, cpp = HEADER.read_text(), HEADER_CPP.read_text()
    calls = header_calls()
    assert len(calls) == 52 and [call for call in calls if f"{call}(" not in cpp] == [
        "dmf_session_problem",
        "dmf_session_solution",
    ]
    assert "written(dmf_session_problem)" in cpp and "written(dmf_session_solution)" in cpp
    numbers = re.findall(r"^    (DMF_\w+) = \d+", c, re.MULTILINE)
    parts = "FAULT_", "COMMAND_"
    named = {
        f"DMF_{''.join(part for part in parts if part in there)}{name.upper()}": there
        for name, there in re.findall(r"^    (\w+) = (DMF_\w+),$", cpp, re.MULTILINE)
    }
    assert len(numbers) == 41 and named == {number: number for number in numbers}


def asked(prefix: Path, tmp_path: Path, *words: str) -> str:
    """Configure a project that asks for dmf with these words, and return what it prints."""
    project = tmp_path / "asked"
    project.mkdir(exist_ok=True)
    (project / "CMakeLists.txt").write_text(
        "cmake_minimum_required(VERSION 3.19)\nproject(asked LANGUAGES CXX)\n"
        f"find_package(dmf {' '.join(words)})\n"
        'message(STATUS "found ${dmf_FOUND} ${dmf_VERSION}")\n'
        "foreach(target dmf::dmf dmf::static)\n  if(TARGET ${target})\n"
        '    get_target_property(file ${target} IMPORTED_LOCATION)\n    message(STATUS "${file}")\n'
        "  endif()\nendforeach()\n"
    )
    shutil.rmtree(project / "build", ignore_errors=True)
    done = run("cmake", "-S", project, "-B", project / "build", f"-DCMAKE_PREFIX_PATH={prefix}")
    return done.stdout + done.stderr


def test_versions_for_cmake(prefix: Path, tmp_path: Path) -> None:
    """A version that is too new or has another first number, or a range without this version, is
    not found."""
    version = (ROOT / "VERSION").read_text().strip()
    major, minor, _ = map(int, version.split("."))
    newer, other = f"{major}.{minor + 1}", f"{major + 1}.0"
    for words in (), (f"{major}.{minor}",), (version, "EXACT"), (f"{major}.0...{newer}",):
        assert f"-- found 1 {version}\n" in asked(prefix, tmp_path, *words)
    for words in (newer,), (other,), (f"{major}.0", "EXACT"), (f"{major}.0...<{version}",):
        told = asked(prefix, tmp_path, *words)
        assert "-- found 0 \n" in told and "dmf::" not in told, told


def test_what_cmake_finds(prefix: Path, tmp_path: Path) -> None:
    """The target dmf::static is there where libdmf.a is. Without the shared library nothing is
    found, and the reason is told."""
    copy = tmp_path / "copy"
    for folder in "lib", "include":
        shutil.copytree(prefix / folder, copy / folder)
    library = copy / "lib/libdmf.so.0"
    assert f"\n-- {library}\n-- {copy}/lib/libdmf.a\n" in asked(copy, tmp_path)
    (copy / "lib/libdmf.a").unlink()
    assert f"\n-- {library}\n" in asked(copy, tmp_path) and "libdmf.a" not in asked(copy, tmp_path)
    library.unlink()
    told = " ".join(asked(copy, tmp_path, "REQUIRED").split())
    assert f"libdmf.so.0 is not in {copy}/lib" in told and "-- found" not in told
