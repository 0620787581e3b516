"""Which program runs, and what is told of one that cannot be used."""

from __future__ import annotations

import errno
import os
import pickle
import re
import shutil
import signal
import subprocess
import sys
from collections.abc import Callable
from pathlib import Path

import pytest
from client_shared import BUILT, CLIENT, PIPES, ROOT, dmf, pipes, script
from dmf.session import executable
from limits import SECONDS

REAL = f'#!/bin/sh\nexec {BUILT} "$@"\n'
# Prints the program that is found, and the one that a network runs whose caller may name one.
ASK = """
import dmf, sys
print(dmf.program())
print(dmf.Network([("a", "b", 1)], "a", "b", program=sys.argv[1] or None)._session.process.args[0])
"""
OTHER = "name another one with the argument program or the variable DMF"


def put(path: Path, text: str = REAL, mode: int = 0o755) -> Path:
    path.parent.mkdir(parents=True, exist_ok=True)
    path.write_text(text)
    path.chmod(mode)
    return path


def put_package(place: Path) -> None:
    shutil.copytree(f"{CLIENT}/dmf", place, ignore=shutil.ignore_patterns("__pycache__"))


def ask(package: Path, named: object = "", **environment: str) -> subprocess.CompletedProcess[str]:
    """What a caller of the package at this place prints, who has no other environment."""
    words = [sys.executable, "-c", ASK, str(named)]
    environment = {"PYTHONPATH": str(package.parent), "PATH": "", **environment}
    return subprocess.run(words, env=environment, capture_output=True, text=True, timeout=SECONDS)


def told(package: Path, **environment: str) -> str:
    """The last line that is told to a caller for whom there is no program."""
    return ask(package, **environment).stderr.splitlines()[-1]


def test_the_order(tmp_path: Path) -> None:
    """Each of the five is used where those before it are not there."""
    package = tmp_path / "clients/python/dmf"
    put_package(package)
    argument, named = put(tmp_path / "argument/dmf"), put(tmp_path / "named/dmf")
    own, beside, on_path = (
        put(package / "bin/dmf"),
        put(tmp_path / "dmf"),
        put(tmp_path / "path/dmf"),
    )
    path, variable = str(on_path.parent), str(named)
    assert ask(package, argument, PATH=path, DMF=variable).stdout.split() == [
        str(named),
        str(argument),
    ]
    assert ask(package, PATH=path, DMF=variable).stdout.split() == [str(named)] * 2
    for program in own, beside, on_path:
        assert ask(package, PATH=path).stdout.split() == [str(program)] * 2
        program.unlink()
    assert told(package, PATH=path).startswith(
        "dmf.NoProgram: no program dmf was found: this package has none for this machine, "
    )


def test_the_variable_names_a_command(tmp_path: Path) -> None:
    put_package(tmp_path / "dmf")
    path = put(tmp_path / "path/other")
    assert (
        ask(tmp_path / "dmf", PATH=str(path.parent), DMF="other").stdout.split() == [str(path)] * 2
    )
    for missing in "another", "/nowhere/dmf", str(put(tmp_path / "plain", mode=0o644)):
        said = told(tmp_path / "dmf", PATH=str(path.parent), DMF=missing)
        assert said == f"dmf.NoProgram: DMF names {missing}, which is not a program that can be run"


def test_a_program_that_belongs_to_the_package(tmp_path: Path) -> None:
    """Also where an install and Debian put it."""
    for prefix, place in ("a", "share/dmf/python/dmf"), ("b", "lib/python3/dist-packages/dmf"):
        put_package(tmp_path / prefix / place)
        program = put(tmp_path / prefix / "lib/dmf/dmf")
        assert ask(tmp_path / prefix / place).stdout.split() == [str(program)] * 2


def test_a_program_that_cannot_be_built(tmp_path: Path) -> None:
    put_package(tmp_path / "clients/python/dmf")
    program = put(tmp_path / "dmf", "#!/bin/sh\necho no rt >&2\nexit 70\n")
    ran = ask(tmp_path / "clients/python/dmf")
    assert ran.stderr.startswith("no rt\n")
    assert ran.stderr.endswith(
        f"\ndmf.NoProgram: no program was found: {program} ended with status 70; {OTHER}\n"
    )


def test_a_lost_mode(tmp_path: Path) -> None:
    """What unpacks a wheel may forget that a file can be run."""
    put_package(tmp_path / "dmf")
    own = put(tmp_path / "dmf/bin/dmf", mode=0o644)
    assert ask(tmp_path / "dmf").stdout.split() == [str(own)] * 2
    assert own.stat().st_mode & 0o777 == 0o755


def refused(program: object) -> str:
    """What is told of a program that is none, without the advice at its end."""
    with pytest.raises(dmf.NoProgram) as caught:
        pipes(program=program)
    assert isinstance(caught.value, FileNotFoundError) and isinstance(caught.value, dmf.Error)
    again = pickle.loads(pickle.dumps(caught.value))
    assert (type(again), str(again)) == (dmf.NoProgram, str(caught.value))
    text = str(caught.value)
    assert OTHER in text and text.startswith(f"{program} ")
    return text.removeprefix(f"{program} ").replace(f"; {OTHER}", "")


def test_what_cannot_be_run(tmp_path: Path, monkeypatch: pytest.MonkeyPatch) -> None:
    text = "neither a program nor a script\n"
    assert refused("/nowhere/dmf") == "cannot be run: No such file or directory"
    assert refused(tmp_path) == "cannot be run: Permission denied"
    assert refused(put(tmp_path / "a", text, 0o644)) == "cannot be run: Permission denied"
    assert refused(put(tmp_path / "b", text)) == "cannot be run: Exec format error"
    # What the system lacks for another reason is not the program's fault.
    for number, name in (errno.EAGAIN, BUILT), (errno.ENOENT, "/tmp/dmf-x"):

        def fail(*_: object, number: int = number, name: str = name, **__: object) -> None:
            raise OSError(number, os.strerror(number), name)

        monkeypatch.setattr(subprocess, "Popen", fail)
        with pytest.raises(OSError, match=os.strerror(number)) as caught:
            pipes(program=BUILT)
        assert not isinstance(caught.value, dmf.NoProgram)


def elf_hash(name: bytes) -> bytes:
    """The sum by which the loader compares names of versions, as an executable has it."""
    value = 0
    for byte in name:
        value = (value << 4) + byte
        high = value & 0xF0000000
        value = (value ^ high >> 24) & ~high
    return value.to_bytes(4, "little")


def test_another_libc(tmp_path: Path) -> None:
    """The real executable, changed so that it needs a libc that this system has not: a newer one,
    or one of another name."""
    content = Path(BUILT).read_bytes()
    newest = max(re.findall(rb"GLIBC_2\.\d\d\b", content))
    future = newest[:-2] + b"99"
    assert content.count(elf_hash(newest)) == 1
    newer = tmp_path / "newer"
    newer.write_bytes(
        content.replace(newest + b"\0", future + b"\0").replace(elf_hash(newest), elf_hash(future))
    )
    newer.chmod(0o755)
    assert refused(newer) == "cannot be run: it needs GLIBC_2.99, and this system's libc is older"
    other = tmp_path / "other"
    other.write_bytes(content.replace(b"/ld-linux-", b"/ld-lynux-"))
    other.chmod(0o755)
    assert (
        refused(other)
        == "cannot be run: the loader that it names does not exist, as on a system without glibc"
    )


NEEDS = f"this package is dmf {dmf.__version__}, and needs {dmf.__version__.rpartition('.')[0]}.x"
OLDER = """case $1 in
--version) echo dmf 0.0.9 ;;
*) echo "dmf: unexpected argument '--brief' found" >&2; exit 2 ;;
esac"""


def test_an_older_program(tmp_path: Path) -> None:
    with script(OLDER) as program:
        assert refused(program) == f"is dmf 0.0.9; {NEEDS}"
        put_package(tmp_path / "dmf")
        said = told(tmp_path / "dmf", PATH=os.path.dirname(program))
        assert said == f"dmf.NoProgram: {program} is dmf 0.0.9; {NEEDS}; {OTHER}"
    # One that answers, but something else.
    with script('[ "$1" = --version ] && echo dmf 0.0.9 || sed -u "s/^undo/c took/"') as program:
        assert refused(program) == f"is dmf 0.0.9; {NEEDS}"


@pytest.mark.parametrize(
    "version, is_fit",
    [("0.1.0", False), ("0.3.0", False), ("1.2.4", False), ("0.2.0", True), ("0.2.11", True)],
)
def test_other_versions(
    monkeypatch: pytest.MonkeyPatch, tmp_path: Path, version: str, is_fit: bool
) -> None:
    """A program of another minor version is refused before it is asked anything else, in sessions
    and in calls that need none, though it would answer well; one of another patch is not."""
    monkeypatch.setattr(dmf, "__version__", "0.2.4")
    (tmp_path / "net.max").write_text("p max 2 1\nn 1 s\nn 2 t\na 1 2 3\n")
    with script(f'[ "$1" = --version ] && echo dmf {version} || exec {BUILT} "$@"') as program:
        calls: list[Callable[[], object]] = [
            lambda: pipes(program=program).solve().value,
            lambda: dmf.value(PIPES, "lake", "sea", program=program),
            lambda: dmf.minimum_cut(PIPES, "lake", "sea", program=program)[0],
        ]
        for call in calls:
            if is_fit:
                assert call() == 5
            else:
                with pytest.raises(dmf.NoProgram) as caught:
                    call()
                assert (
                    str(caught.value)
                    == f"{program} is dmf {version}; this package is dmf 0.2.4, and needs 0.2.x; "
                    f"{OTHER}"
                )


def test_a_program_that_is_replaced() -> None:
    """What a file answered holds as long as it stays the same file."""
    with script(
        f'[ "$1" = --version ] && echo dmf {dmf.__version__} || exec {BUILT} "$@"'
    ) as program:
        assert pipes(program=program).solve().value == 5
        put(
            Path(program),
            f'#!/bin/sh\n[ "$1" = --version ] && echo dmf 99.0.0 || exec {BUILT} "$@"\n',
        )
        assert refused(program) == f"is dmf 99.0.0; {NEEDS}"


def test_another_program() -> None:
    needs = f"is not dmf; {NEEDS}"
    assert refused(shutil.which("false")) == f"{needs}: dmf ended with status 1"
    with script("cat") as program:
        assert refused(program).startswith(
            f"{needs}: the session was ended, since dmf's answer to `undo 0` was not understood"
        )


def test_a_program_that_does_not_answer(monkeypatch: pytest.MonkeyPatch) -> None:
    """A slow machine is no reason to call a program another one."""
    monkeypatch.setattr(executable, "SECONDS", 1)
    with script('[ "$1" != --version ] || exec sleep 60; exit 9') as program:
        assert refused(program) == (
            "did not print its version within 1 seconds, so it may not be dmf; "
            f"{NEEDS}: dmf ended with status 9"
        )
    with script(f'[ "$1" != --version ] || exec sleep 60; exec {BUILT} "$@"') as program:
        assert pipes(program=program).solve().value == 5


def test_the_right_program_that_fails() -> None:
    with script(
        f'[ "$1" != --version ] || exec {BUILT} --version; echo no luck >&2; exit 9'
    ) as program:
        with pytest.raises(dmf.SessionEnded, match="^dmf ended with status 9: no luck$"):
            pipes(program=program)


def as_module(*words: str, **environment: str) -> subprocess.CompletedProcess[str]:
    """What `python -m dmf` does with these words."""
    environment = {"PYTHONPATH": CLIENT, "PATH": "/usr/bin:/bin", "DMF": BUILT, **environment}
    problem = "p max 2 1\nn 1 s\nn 2 t\na 1 2 3\n"
    return subprocess.run(
        [sys.executable, "-m", "dmf", *words],
        env=environment,
        input=problem,
        capture_output=True,
        text=True,
        timeout=SECONDS,
    )


def test_as_a_module(tmp_path: Path) -> None:
    assert as_module().stdout == "s 3\nf 1 2 3\n"
    assert as_module("solve", "--cut").stdout == "s 3\nf 1 2 3\nc cut 3\nc side 1\n"
    for words in ["check", "/nowhere"], ["--brief"], ["a\udcff"]:
        plain = subprocess.run([BUILT, *words], capture_output=True, text=True)
        ran = as_module(*words)
        assert (ran.returncode, ran.stdout, ran.stderr) == (
            plain.returncode,
            plain.stdout,
            plain.stderr,
        )
    ran = as_module(DMF="/nowhere/dmf")
    assert (ran.returncode, ran.stdout) == (70, "")
    assert ran.stderr == "dmf: DMF names /nowhere/dmf, which is not a program that can be run\n"
    ran = as_module(f"{ROOT}/examples/a.max", DMF="/nowhere/dmf")
    assert (ran.returncode, ran.stdout) == (70, "")
    assert ran.stderr == "dmf: DMF names /nowhere/dmf, which is not a program that can be run\n"
    ran = as_module(DMF=str(put(tmp_path / "dmf", "no program\n")))
    assert (ran.returncode, ran.stderr) == (
        70,
        f"dmf: {tmp_path}/dmf cannot be run: Exec format error; {OTHER}\n",
    )


@pytest.mark.parametrize("tool", ["dmf-board", "dmf-plan", "dmf-sweep"])
def test_a_tool_without_a_program(tool: str) -> None:
    words = [
        f"{ROOT}/tools/{tool}",
        f"{ROOT}/examples/a.max",
        *(["--close-each"] if tool == "dmf-sweep" else []),
    ]
    environment = {**os.environ, "DMF": "/nowhere/dmf"}
    ran = subprocess.run(
        words,
        env=environment,
        stdin=subprocess.DEVNULL,
        capture_output=True,
        text=True,
        timeout=SECONDS,
    )
    assert (ran.stdout, ran.stderr) == (
        "",
        f"{tool}: DMF names /nowhere/dmf, which is not a program that can be run\n",
    )
    assert ran.returncode == 4


def test_the_command_of_a_package_without_the_executable() -> None:
    """It does not run another program in its place."""
    environment = {"PYTHONPATH": CLIENT, "PATH": "", "DMF": BUILT}
    ran = subprocess.run(
        [sys.executable, f"{CLIENT}/command.py"],
        env=environment,
        input="",
        capture_output=True,
        text=True,
    )
    assert (ran.returncode, ran.stdout) == (70, "")
    assert ran.stderr == f"dmf: {CLIENT}/dmf/bin/dmf cannot be run: No such file or directory\n"


def test_in_place_of_python(tmp_path: Path) -> None:
    """The program is the process that the caller began, heeds each signal that it would heed
    without Python, and ends as it ends by itself."""
    program = put(
        tmp_path / "dmf", "#!/bin/sh\necho $$; grep SigIgn /proc/$$/status; kill -TERM $$\n"
    )
    ignored = subprocess.run([program], stdout=subprocess.PIPE, text=True).stdout.split()[2]
    words = [sys.executable, "-m", "dmf"]
    environment = {"PYTHONPATH": CLIENT, "PATH": "/usr/bin:/bin", "DMF": str(program)}
    ran = subprocess.Popen(words, env=environment, stdout=subprocess.PIPE, text=True)
    said = ran.communicate(timeout=SECONDS)[0].split()
    assert (said[0], said[2], ran.returncode) == (str(ran.pid), ignored, -signal.SIGTERM)
