"""Runs the built program under valgrind's memcheck: it makes no invalid access, uses no value that
was never set, and loses no memory. What it answers is as ever."""

from __future__ import annotations

import os
import subprocess
from pathlib import Path

import built
import pytest
from built import PROBLEM, Case
from conftest import shared
from limits import SECONDS
from refused import ways_of
from worked_forms import CROSSED, CROSSED_FLOW, text

# The status with which valgrind ends if it found an error. The program has none of it.
FOUND = 99
VALGRIND = [
    "valgrind",
    "--quiet",
    f"--error-exitcode={FOUND}",
    "--leak-check=full",
    "--errors-for-leak-kinds=definite",
    "--child-silent-after-fork=yes",
]
CHANGES = (
    "solve / cap 5 1 / solve / add 1 4 7 / solve / undo 3 / redo 2 / add 2 2 5 / shut 3 / undo / "
    "redo / close 1 / undo 9 / print cut / print problem"
)
# Refuses the program, and not the shell script that valgrind is, one request for memory. What
# valgrind puts in place of the C library's calls is called by their names, which faults.c does not
# do.
REFUSING = """
#define _GNU_SOURCE
#include <dlfcn.h>
#include <errno.h>
#include <stdlib.h>
#include <string.h>
static int is_refused(void) {
    static int made;
    const char *name = program_invocation_short_name;
    return name != NULL && strcmp(name, "dmf") == 0 && ++made == atoi(getenv("REFUSED"));
}
void *malloc(size_t size) {
    void *(*next)(size_t) = (void *(*)(size_t))dlsym(RTLD_NEXT, "malloc");
    return is_refused() ? NULL : next(size);
}
void *realloc(void *room, size_t size) {
    void *(*next)(void *, size_t) = (void *(*)(void *, size_t))dlsym(RTLD_NEXT, "realloc");
    return is_refused() ? NULL : next(room, size);
}
"""


def case(name: str, words: str, given: str, problem: str = CROSSED) -> Case:
    return Case(name, tuple(word.encode() for word in words.split()), text(problem), text(given))


SESSION = f"session {PROBLEM.decode()}"
CASES = [
    case("a solve", "solve", CROSSED),
    case("a solve with its cut", "solve --cut", CROSSED),
    case("a solve by any flow, with the cut", "solve --any --cut", CROSSED),
    case("what is left without each arc", "vital", CROSSED),
    case("what is left without each node", "vital --nodes", CROSSED),
    case("what there is with second arcs", "vital --second", CROSSED),
    case("what is left without the worst", "vital --worst 2", CROSSED),
    case("what is left without the worst pairs", "vital --pairs --worst 2", CROSSED),
    case("a check", f"check {PROBLEM.decode()}", CROSSED_FLOW),
    case("a check of another flow", f"check {PROBLEM.decode()}", "s 0"),
    case("a session", SESSION, CHANGES),
    case(
        "a session with brief replies and cuts that keeps two states",
        f"session --brief --cut --history 2 {PROBLEM.decode()}",
        CHANGES,
    ),
    case(
        "lines that are refused",
        SESSION,
        f"cap 9 1 / cap x / {'x' * 5000} / undo / wash / print cut",
    ),
    case("a problem with a fault", SESSION, "solve", CROSSED.replace("a 2 4 2", "a 2 9 2")),
    case("a solution with a fault", f"check {PROBLEM.decode()}", "s 5 / f 1 2 4"),
    case("words that are refused", "session --cuts", ""),
]
# Of the session, these requests for memory are refused: before it begins, in solves, in an addition
# and in a shut.
REFUSED = (60, 85, 112, 117, 148)


def judge(case: Case, **environment: str) -> built.Run:
    """Runs a case under valgrind, which has no error to tell."""
    built.put_problem(case)
    words: list[str | bytes] = [*VALGRIND, built.BUILT, *case.words]
    ran = subprocess.run(
        words,
        input=case.input,
        capture_output=True,
        timeout=SECONDS,
        env={**os.environ, **environment},
    )
    assert ran.returncode != FOUND and b"==" not in ran.stderr, ran.stderr.decode()
    return built.Run(ran.returncode, ran.stdout, ran.stderr)


@pytest.fixture
def refusing(tmp_path_factory: pytest.TempPathFactory) -> Path:
    """The library of REFUSING."""
    with shared(tmp_path_factory, "refusing.so") as library:
        if not library.exists():
            subprocess.run(
                ["gcc", "-shared", "-fPIC", "-x", "c", "-o", library, "-"],
                input=REFUSING.encode(),
                check=True,
            )
    return library


@pytest.mark.seconds(2)
@pytest.mark.usefixtures("case_folder")
@pytest.mark.parametrize("case", [pytest.param(it, id=it.name) for it in CASES])
def test_memcheck(case: Case) -> None:
    run = judge(case)
    assert built.wanted(case).allows(*run), f"the program ends so: {run}"


@pytest.mark.seconds(2)
@pytest.mark.usefixtures("case_folder")
@pytest.mark.parametrize("number", REFUSED)
def test_refused(refusing: Path, number: int) -> None:
    session = CASES[4]
    run = judge(session, LD_PRELOAD=str(refusing), REFUSED=str(number))
    assert ways_of(session, run, 1), f"with request {number} refused the run ends so: {run}"


@pytest.mark.parametrize(
    "fault",
    [
        "malloc(8)",
        'free(malloc(1)); puts(getenv("PATH") + 9999999)',
        'if (*(volatile char *)malloc(1)) puts("")',
    ],
)
def test_fault(tmp_path: Path, fault: str) -> None:
    """A program that loses memory, or reads where nothing is, is found."""
    source = f"#include <stdlib.h>\n#include <stdio.h>\nint main(void) {{ {fault}; return 0; }}\n"
    subprocess.run(
        ["gcc", "-O0", "-g", "-x", "c", "-o", tmp_path / "faulty", "-"],
        input=source.encode(),
        check=True,
    )
    assert subprocess.run([*VALGRIND, tmp_path / "faulty"], capture_output=True).returncode in (
        FOUND,
        -11,
    )
