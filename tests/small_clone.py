"""A folder with ./dmf, the other scripts of the gate, some small crates, and a PATH of few tools.
There a stand-in for rt makes a program that writes its words, and one for tools/library a library,
from which `tools/prebuilt renew` fills prebuilt/."""

from __future__ import annotations

import os
import shlex
import shutil
import subprocess
from pathlib import Path
from typing import NamedTuple

from conftest import ROOT
from limits import SECONDS

PACKED, FACTS = "prebuilt/dmf-x86_64-linux.gz", "prebuilt/dmf-x86_64-linux.txt"
PACKED_LIBRARY, LIBRARY = "prebuilt/libdmf-x86_64-linux.so.0.gz", "crates/dmf_c/out/libdmf.so.0"
PACKED_ARCHIVE, ARCHIVE = "prebuilt/libdmf-x86_64-linux.a.gz", "crates/dmf_c/out/libdmf.a"
SCRIPTS = ["dmf", "prove", ".ci/run", ".ci/typed", ".ci/bare_debian.sh"]
SCRIPTS += [
    f"tools/{name}"
    for name in (
        "build.py",
        "program_crates.py",
        "prebuilt",
        "format_rattle",
        "commands.sh",
        "count.sh",
        "packages.sh",
        "own_kit",
        "must_fail.py",
        "prove_crates.py",
        "loaded.py",
    )
]
# What a system has that has no toolchain, no Python and no compiler.
FEW = [
    "sh",
    "awk",
    "cat",
    "chmod",
    "cmp",
    "cut",
    "dirname",
    "find",
    "gzip",
    "head",
    "id",
    "mkdir",
    "mktemp",
    "mv",
    "readlink",
    "rm",
]
FEW += ["sed", "sha256sum", "sort", "uname"]
# A rt that makes the program of the crate dmf from the file `made` of this folder, and that writes
# the file `said` at the end of `rt ci --anew`.
STAND_IN = r"""#!/bin/sh
files={}
case $1 in
version) echo "a kit of the test" ;;
ci)
    test "$2" = --anew || exit 3
    ls -d crates/*/out 2>/dev/null && exit 4
    mkdir crates/dmf/out && cp "$files/made" crates/dmf/out/dmf
    echo logic=proved functions=1 && cat "$files/said" ;;
run) mkdir -p out/rlib && cp "$files/made" out/dmf ;;
*) mkdir -p out/rlib ;;
esac
"""
# A toolchain's formatter that dislikes a line of its own.
FORMATTER = """#!/bin/sh
test "$1 $2" = "fmt --check" || exit 3
shift 2
! grep -l "^UNFORMATTED" "$@"
"""
PROGRAM = '#!/bin/sh\necho ran {} "$@"\n'
MAKES_LIBRARY = """#!/bin/sh
mkdir -p "$1" && echo "${LIBRARY:-a library}" >"$1/libdmf.so.0" && echo "an archive" >"$1/libdmf.a"
"""


class Ended(NamedTuple):
    """How a call of ./dmf ended."""

    status: int
    out: str
    err: str


class Clone:
    """A folder with the scripts, four crates of which one is of tests, and a PATH of few tools."""

    def __init__(self, root: Path) -> None:
        self.root, self.bin, self.home = root / "clone", root / "bin", root / "home"
        self.rt, self.made, self.said = root / "toolchain" / "rt", root / "made", root / "said"
        for crate in "low", "dmf", "dmf_c", "test_low":
            (self.root / "crates" / crate / "src").mkdir(parents=True)
            (self.root / "crates" / crate / "src" / "lib.rt").write_text(f"// {crate}\n")
        for folder in self.bin, self.home, self.rt.parent, self.root / "tools", self.root / ".ci":
            folder.mkdir()
        for script in SCRIPTS:
            shutil.copy(ROOT / script, self.root / script)
        (self.root / "VERSION").write_text("0.9.7\n")
        (self.root / "crates.txt").write_text(
            "# Crates.\nlow:\ndmf: low # and no other\ndmf_c staticlib: low\ntest_low: low\n"
        )
        (self.root / "tools/library").write_text(MAKES_LIBRARY)
        (self.root / "tools/library").chmod(0o755)
        shutil.copy(ROOT / "tools/dmf.map", self.root / "tools")
        for tool in FEW:
            (self.bin / tool).symlink_to(shutil.which(tool) or tool)
        for path, script in {
            self.rt: STAND_IN.format(shlex.quote(str(root))),
            self.rt.parent / "rattle": FORMATTER,
        }.items():
            path.write_text(script)
            path.chmod(0o755)

    def renew(self, program: str = PROGRAM.format("the first")) -> None:
        """Fills prebuilt/ with this program, which is then built no more."""
        self.made.write_text(program)
        self.made.chmod(0o755)
        ran = subprocess.run(
            [self.root / "tools" / "prebuilt", "renew"],
            env=self.with_toolchain(),
            capture_output=True,
            text=True,
            timeout=SECONDS,
        )
        assert ran.returncode == 0, ran.stdout + ran.stderr
        self.forget()

    def with_toolchain(self, **more: str) -> dict[str, str]:
        return {**os.environ, "PATH": f"{self.rt.parent}:{os.environ['PATH']}", **more}

    def forget(self) -> None:
        """Removes what was built."""
        for out in self.root.glob("crates/*/out"):
            shutil.rmtree(out)

    def words(self, *words: str, by: tuple[str, ...] = ()) -> list[str]:
        return [*by, str(self.root / "dmf"), *words]

    def environment(self) -> dict[str, str]:
        return {"PATH": str(self.bin), "HOME": str(self.home)}

    def call(
        self, *words: str, by: tuple[str, ...] = (), environment: dict[str, str] | None = None
    ) -> Ended:
        """Calls ./dmf where there is no toolchain, no Python and no compiler."""
        command, environment = self.words(*words, by=by), {
            **self.environment(),
            **(environment or {}),
        }
        ran = subprocess.run(
            command,
            env=environment,
            stdin=subprocess.DEVNULL,
            capture_output=True,
            text=True,
            timeout=SECONDS,
        )
        return Ended(ran.returncode, ran.stdout, ran.stderr)

    def check(self, *words: str) -> tuple[int, str]:
        """What `tools/prebuilt check` says."""
        ran = subprocess.run(
            [self.root / "tools" / "prebuilt", "check", *words],
            capture_output=True,
            text=True,
            timeout=SECONDS,
        )
        assert ran.stderr == ""
        return ran.returncode, ran.stdout

    def left(self) -> list[str]:
        """The files that were made for the program."""
        return sorted(path.name for path in (self.root / "crates/dmf/out").glob("*"))
