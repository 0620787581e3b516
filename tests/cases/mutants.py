"""Faults in parts of the program that no proof sees, each with the test that must fail for it.
`old` stands once in its file. tests/toolchain builds WIRINGS in the gate, and `--long` the others.
"""

from __future__ import annotations

from typing import NamedTuple

from oracle.program import RELEASE


class Mutant(NamedTuple):
    """A fault: the file, a text in it, what stands there instead, and the test."""

    name: str
    file: str
    old: str
    new: str
    test: str


def in_file(file: str, *rows: tuple[str, str, str, str]) -> list[Mutant]:
    """The faults of a file below crates/. A row has a fault's name, the two texts, and its test
    below tests/."""
    return [
        Mutant(name, f"crates/{file}", old, new, f"tests/{test}") for name, old, new, test in rows
    ]


SOLVED = "program/test_worked.py::test_worked[two ways that cross"
ENDED = "program/test_program.py::test_ends[an empty problem]"
HELPED = "program/test_program.py::test_help[--help]"
CHECKED = "program/test_worked.py::test_worked[a greatest flow, its lines in any order]"
REFUSED = "program/test_program.py::test_refused_words[an unknown word]"
HELD = "program/test_worked.py::test_worked[an added arc is taken back]"
ON_TERMINAL = "program/test_terminal.py::test_session"
ASKED = "program/test_progress.py::test_asked_session"
STDOUT, STDERR = "writer: rt.stdout()", "writer: rt.stderr()"
SINK = "WatchedSink::new(out, &progress)"
UNWATCHED = (
    "let silent = Progress::new(rt, false);\n    let mut watch = Dialogue::new(rt, "
    "path_in(&asked.mode), WatchedSolve::new(&silent));"
)
ASKED_FOR = "Progress::new(rt, asked.progress)"
# What no contract says of `main` and of what it calls beside the run: which files it opens, what it
# tells on standard error, and that it ends with its status.
WIRINGS = [
    *in_file(
        "dmf/src/main.rt",
        ("a status is another", "ExitCode::from(status)", "ExitCode::from(status / 2)", ENDED),
        ("help is on standard error", STDOUT, STDERR, HELPED),
        ("wrong words are told on standard output", STDERR, STDOUT, REFUSED),
        ("nothing says why a run ends", "let _ = tell(rt, fault);", "", ENDED),
        (
            "a fault is not explained",
            "explain(rt, fault);",
            "if let Fault::Usage = fault { explain(rt, fault); }",
            "program/test_terminal.py::test_folder",
        ),
        (
            "nothing says that a problem is typed",
            "invite(rt);",
            "if asked.brief { invite(rt); }",
            "program/test_terminal.py::test_typed_problem",
        ),
        ("each run reports", ASKED_FOR, "Progress::new(rt, true)", f"{SOLVED}]"),
        ("no run reports", ASKED_FOR, "Progress::new(rt, false)", ASKED),
        (
            "a check reports",
            ASKED_FOR,
            "Progress::new(rt, asked.progress || matches!(asked.mode, Mode::Check { .. }))",
            CHECKED,
        ),
        (
            "a reply stands behind progress",
            SINK,
            "out",
            "program/test_progress.py::test_asked_on_terminal",
        ),
        ("names are of another file", "path_in(&asked.mode)", '""', ON_TERMINAL),
        (
            "a solve has no watch",
            "let mut watch = Dialogue::new(rt, path_in(&asked.mode), "
            "WatchedSolve::new(&progress));",
            UNWATCHED,
            ASKED,
        ),
        (
            "progress stays behind a fault",
            "progress.end();",
            "",
            "program/test_progress.py::test_slow_fault",
        ),
        ("another file is opened", "open_problem(rt, path)", 'open_problem(rt, "/dev/null")', HELD),
        (
            "no size is known",
            "WatchedSource::of_file(file, path, progress)",
            "WatchedSource::of_input(file, progress)",
            "program/test_progress.py::test_size",
        ),
        (
            "progress stays while it waits",
            "Mode::Session { .. } => WatchedSource::of_commands",
            "Mode::Check { .. } => WatchedSource::of_commands",
            "program/test_progress.py::test_asked_while_waiting",
        ),
        (
            "reading a problem is not reported",
            "_ => WatchedSource::of_input(input, progress)",
            "_ => WatchedSource::of_commands(input, progress)",
            "program/test_progress.py::test_asked_solve",
        ),
        (
            "the help names a page that is not there",
            "help_without_page(rt, help).is_some()",
            "false",
            "program/test_terminal.py::test_help",
        ),
    ),
    *in_file(
        "dmf_host/src/told.rt",
        ("a fault does not say whose it is", '"dmf: {fault}"', '"{fault}"', ENDED),
    ),
    *in_file(
        "dmf_host/src/files.rt",
        (
            "the problem has the descriptor of standard input",
            ".and_then(|file| file.try_clone())",
            "",
            "program/test_streams.py::test_closed",
        ),
    ),
]
MUTANTS = [
    *in_file(
        "dmf_host/src/told.rt",
        (
            "wrong words have another status",
            "Fault::Words) => 2",
            "Fault::Words) => 3",
            REFUSED,
        ),
    ),
    *in_file(
        "dmf_terminal/src/dialogue.rt",
        ("a refusal is not explained", "self.explain(refusal, line);", "", ON_TERMINAL),
        ("an added arc is not heard of", "self.has_added = true;", "", ON_TERMINAL),
    ),
    *in_file(
        "dmf_progress/src/progress.rt",
        (
            "progress comes late",
            "PATIENCE: u64 = 500;",
            "PATIENCE: u64 = 500_000;",
            "program/test_progress.py::test_slow_solve",
        ),
        (
            "the line of progress is not erased",
            "is_shown.set(true)",
            "is_shown.set(false)",
            "program/test_progress.py::test_slow_solve",
        ),
        (
            "no size is told",
            "if told.is_file()",
            "if !told.is_file()",
            "program/test_progress.py::test_size",
        ),
        (
            "a bound is told of nothing",
            "Some(value_limit(state))",
            "Some(value_limit(state) / 2)",
            "program/test_progress.py::test_bound_in_session",
        ),
    ),
    *in_file(
        "dmf_arguments/src/help.rt",
        (
            "the help tells another reply",
            "c add ARC value VALUE\n",
            "c add value VALUE\n",
            "test_commands.py::test_help",
        ),
        (
            "the help tells another status",
            "  0  success\n",
            "  0  good\n",
            "program/test_worked.py::test_words",
        ),
        (
            "another version",
            f'VERSION: &str = "{RELEASE}"',
            f'VERSION: &str = "{RELEASE}1"',
            "program/test_program.py::test_ends",
        ),
    ),
]
