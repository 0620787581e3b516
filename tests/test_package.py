"""./package: what it makes has its sums, and what git tracks alone. It is put into an empty root,
and into a folder of a machine without the toolchain, and the tutorial is run there."""

from __future__ import annotations

import hashlib
import os
import re
import shutil
from pathlib import Path

import pytest
from conftest import ROOT
from launched import judge_help, judge_words
from package_runs import call_dpkg, judge_examples, ran, run, the

pytestmark = pytest.mark.seconds(20)
TOOLS = ["dmf-problem", "dmf-names", "dmf-dot", "dmf-sweep", "dmf-plan", "dmf-board"]
# A link of a page to a file, and the file.
LINK = re.compile(r"\]\((?!https?:|#)([^)#]*)")
SCRIPT = """
import dmf
network = dmf.Network([("lake", "mill", 3), ("mill", "sea", 2)], "lake", "sea")
print(dmf.__file__, dmf.program(), dmf.library(), network.solve().value)
"""


@pytest.fixture(scope="module")
def made(tmp_path_factory: pytest.TempPathFactory) -> Path:
    """A folder with both packages."""
    folder = tmp_path_factory.mktemp("made")
    told = ran("./package", "--output", folder)
    assert sorted(told.split()[1::2]) == sorted(map(str, folder.iterdir()))
    assert sorted(path.suffix for path in folder.iterdir()) == [
        "",
        ".deb",
        ".deb",
        ".deb",
        ".gz",
        ".whl",
    ]
    return folder


@pytest.fixture(scope="module")
def system(made: Path, tmp_path_factory: pytest.TempPathFactory) -> Path:
    """An empty root, with the Debian package alone."""
    root = tmp_path_factory.mktemp("root")
    if os.geteuid():
        ran("dpkg-deb", "-x", the(made, "dmf_*.deb"), root)
    else:
        call_dpkg(root, "-i", the(made, "dmf_*.deb"))
    return root


@pytest.fixture(scope="module")
def unpacked(made: Path, tmp_path_factory: pytest.TempPathFactory) -> Path:
    """The folder that the archive has."""
    folder = tmp_path_factory.mktemp("unpacked")
    ran("tar", "-xf", the(made, "*.tar.gz"), "-C", folder)
    return the(folder, "*")


def test_sums(made: Path) -> None:
    """All that was made beside them is as they say, by the tool of the field."""
    told = ran("sha256sum", "-c", "SHA256SUMS", folder=made)
    assert told == "".join(
        f"{path.name}: OK\n" for path in sorted(made.iterdir()) if path.name != "SHA256SUMS"
    )
    for line in (made / "SHA256SUMS").read_text().splitlines():
        digest, name = line.split("  ")
        assert hashlib.sha256((made / name).read_bytes()).hexdigest() == digest


def test_only_what_git_tracks(unpacked: Path, system: Path) -> None:
    tracked = {
        *ran("git", "ls-files").splitlines(),
        "crates/dmf/out/dmf",
        "crates/dmf_c/out/libdmf.so.0",
        "crates/dmf_c/out/libdmf.a",
    }
    assert {
        str(path.relative_to(unpacked)) for path in unpacked.rglob("*") if path.is_file()
    } <= tracked
    documents = system / "usr/share/doc/dmf"
    theirs = {"copyright", "changelog.gz", "changelog.Debian.gz"}
    assert {
        str(path.relative_to(documents)) for path in documents.rglob("*") if path.is_file()
    } <= tracked | theirs


def test_links(unpacked: Path, system: Path) -> None:
    """No link of a page leads nowhere, and those to what is packed are links still."""
    for folder in unpacked, system / "usr/share/doc/dmf":
        places = {page: LINK.findall(page.read_text()) for page in folder.rglob("*.md")}
        assert not [
            (page, place)
            for page, found in places.items()
            for place in found
            if not (page.parent / place).exists()
        ]
        assert {"docs/TUTORIAL.md", "examples/water/README.md", "docs/pictures/board.png"} <= {
            *places[folder / "README.md"]
        }
        assert "DEFINITIONS.md" in places[folder / "docs/TRUST.md"] and len(places) > 8


def test_lintian(made: Path) -> None:
    for package in made.glob("*.deb"):
        said = run("lintian", package).stdout
        assert not re.search("^[EW]: ", said, re.MULTILINE), said


def test_files(system: Path, made: Path) -> None:
    """Each file has its sum, and no file is writable or hidden for others."""
    control = made.parent / "control"
    ran("dpkg-deb", "-e", the(made, "dmf_*.deb"), control)
    named = {
        line.split(maxsplit=1)[1]: line.split()[0]
        for line in (control / "md5sums").read_text().splitlines()
    }
    files = {
        path for path in (system / "usr").rglob("*") if path.is_file() and path.suffix != ".pyc"
    }
    assert {str(path.relative_to(system)) for path in files} == set(named)
    for path in files:
        assert hashlib.md5(path.read_bytes()).hexdigest() == named[str(path.relative_to(system))]
        is_run = path.parent.name == "bin" or path == system / "usr/lib/dmf/dmf"
        assert path.stat().st_mode & 0o777 == (0o755 if is_run else 0o644), path
    share = system / "usr/share"
    assert {path.name for path in (system / "usr/bin").iterdir()} == {"dmf", *TOOLS}
    assert [path.name for path in (share / "man/man5").iterdir()] == ["dmf-tables.5.gz"]
    assert {path.name for path in (share / "man/man1").iterdir()} == {
        f"{name}.1.gz" for name in ["dmf", *TOOLS]
    }
    assert {path.name for path in (share / "bash-completion/completions").iterdir()} == {
        "dmf",
        *TOOLS,
    }
    modules = system / "usr/lib/python3/dist-packages/dmf"
    packed = {path.relative_to(modules) for path in modules.rglob("*.*") if path.suffix != ".pyc"}
    ours = ROOT / "clients/python/dmf"
    assert packed == {path.relative_to(ours) for path in ours.rglob("*.*") if path.suffix != ".pyc"}


def test_command_of_the_package(system: Path, unpacked: Path) -> None:
    """The launcher of the Debian package, and ./dmf of the archive."""
    for launcher, program in (
        (system / "usr/bin/dmf", system / "usr/lib/dmf/dmf"),
        (unpacked / "dmf", unpacked / "crates/dmf/out/dmf"),
    ):
        judge_words(launcher, program)
        judge_help(launcher, program)
    modules = str(system / "usr/lib/python3/dist-packages")
    for tool in TOOLS:
        plain = ran(system / "usr/bin" / tool, "--help", PYTHONPATH=modules)
        word = tool.removeprefix("dmf-")
        assert ran(system / "usr/bin/dmf", word, "--help", PYTHONPATH=modules) == plain
        assert ran(unpacked / "dmf", "help", word) == plain


def test_tutorial_of_the_package(system: Path, tmp_path: Path) -> None:
    """In a copy of the package's examples, by its program and its tools."""
    documents = system / "usr/share/doc/dmf"
    shutil.copytree(documents / "examples", tmp_path / "examples")
    (tmp_path / "dmf").symlink_to(system / "usr/bin/dmf")
    (tmp_path / "tools").symlink_to(system / "usr/bin")
    for page in "docs/TUTORIAL.md", "examples/water/README.md":
        judge_examples(
            documents / page, tmp_path, PYTHONPATH=str(system / "usr/lib/python3/dist-packages")
        )


def test_python_of_the_package(system: Path, tmp_path: Path) -> None:
    """The module is where Debian's Python looks, and finds the program beside itself. So do the
    tools."""
    modules = system / "usr/lib/python3/dist-packages"
    told = ran("/usr/bin/python3", "-c", SCRIPT, folder=tmp_path, PYTHONPATH=str(modules))
    assert told == f"{modules}/dmf/__init__.py {system}/usr/lib/dmf/dmf None 2\n"
    table = system / "usr/share/doc/dmf/examples/water/pipes.csv"
    assert (
        run(system / "usr/bin/dmf-plan", table, folder=tmp_path, PYTHONPATH=str(modules)).returncode
        == 0
    )


def test_the_library(system: Path, made: Path, tmp_path: Path) -> None:
    """Beside dmf, by the packages of the library: its Python package runs by it, and a C program is
    compiled with it."""
    root = tmp_path / "root"
    shutil.copytree(system, root, symlinks=True)
    for name in "libdmf0", "libdmf-dev":
        ran("dpkg-deb", "-x", the(made, f"{name}_*.deb"), root)
    (found,) = (root / "usr/lib").glob("*-linux-gnu*/libdmf.so.0")
    told = ran(
        "/usr/bin/python3",
        "-c",
        SCRIPT,
        folder=tmp_path,
        PYTHONPATH=f"{root}/usr/lib/python3/dist-packages",
    )
    assert told.split()[1:] == [f"{root}/usr/lib/dmf/dmf", str(found), "2"]
    flags = dict(
        line.split("=", 1)
        for line in (found.parent / "pkgconfig/dmf.pc").read_text().splitlines()
        if "=" in line
    )
    assert (flags["prefix"], flags["libdir"], flags["includedir"]) == (
        "/usr",
        f"/{found.parent.relative_to(root)}",
        "${prefix}/include",
    )
    assert (found.parent / "libdmf.so").readlink() == Path("libdmf.so.0")
    ran(
        "gcc",
        ROOT / "examples/c/limit.c",
        "-o",
        tmp_path / "limit",
        f"-I{root}/usr/include",
        f"-L{found.parent}",
        "-ldmf",
    )
    told = "without arc 1: 2\nagain: 5\n"
    assert ran(tmp_path / "limit", LD_LIBRARY_PATH=str(found.parent)).endswith(told)
    words = ("gcc", "-static", ROOT / "examples/c/limit.c", "-o", tmp_path / "static")
    ran(*words, f"-I{root}/usr/include", f"-L{found.parent}", "-ldmf")
    assert ran(tmp_path / "static").endswith(told)
    assert (root / "usr/share/man/man3/dmf.3.gz").is_file()


def test_the_library_by_cmake(system: Path, made: Path, tmp_path: Path) -> None:
    """A C++ project finds the files of both packages by CMake, also by the link that Debian has
    from lib to usr/lib."""
    root = tmp_path / "root"
    for name in "libdmf0", "libdmf-dev":
        ran("dpkg-deb", "-x", the(made, f"{name}_*.deb"), root)
    (root / "lib").symlink_to("usr/lib")
    source = system / "usr/share/doc/dmf/examples/cpp"
    for prefix in root / "usr", root:
        build = tmp_path / f"build-{prefix.name}"
        ran("cmake", "-S", source, "-B", build, f"-DCMAKE_PREFIX_PATH={prefix}")
        ran("cmake", "--build", build)
        written = ran(build / "vital", ROOT / "examples/a.max")
        assert "\narc 1 is closed: 2\n" in written


@pytest.mark.root
def test_removed(made: Path, tmp_path: Path) -> None:
    """Nothing is left but what dpkg keeps, also where Python has compiled the modules."""
    call_dpkg(tmp_path, "-i", the(made, "dmf_*.deb"))
    modules = tmp_path / "usr/lib/python3/dist-packages"
    ran("/usr/bin/python3", "-c", "import dmf.desk.plan.shell", PYTHONPATH=str(modules))
    assert len([*(modules / "dmf").rglob("*.pyc")]) > 20
    call_dpkg(tmp_path, "-P", "dmf")
    assert [path.name for path in tmp_path.iterdir()] == ["var"]


def test_description(made: Path) -> None:
    """It claims no more than what is proved, and its file belongs to the package."""
    told = " ".join(ran("dpkg-deb", "-f", the(made, "dmf_*.deb"), "Description").split())
    assert (
        "The calls that do this are proved to meet their contracts; the page TRUST in the "
        "documents says what that covers" in told
    )
    assert "greatest" not in told and "minimum" not in told
    assert " ./usr/share/doc/dmf/docs/TRUST.md\n" in ran("dpkg-deb", "-c", the(made, "dmf_*.deb"))


def test_tutorial_of_the_archive(unpacked: Path) -> None:
    judge_examples(unpacked / "docs/TUTORIAL.md", unpacked)


def test_archive_without_its_executable(made: Path, tmp_path: Path) -> None:
    """What is missing is told in a line."""
    ran("tar", "-xf", the(made, "*.tar.gz"), "-C", tmp_path)
    folder = the(tmp_path, "*")
    program = folder / "crates/dmf/out/dmf"
    program.unlink()
    done = run("./dmf", "--version", folder=folder)
    told = (
        f"dmf: the executable {program} does not exist; rt, which is needed to build the program, "
        "is not in PATH.\n"
    )
    assert (done.returncode, done.stdout, done.stderr) == (70, "", told)


def test_install_of_the_archive(unpacked: Path, tmp_path: Path) -> None:
    """./install puts the same as in the repository, and takes it away."""
    prefix = tmp_path / "prefix"
    told = ran("./install", "--prefix", prefix, folder=unpacked)
    from_here = ran("./install", "--prefix", tmp_path / "other")
    assert told.replace(str(prefix), str(tmp_path / "other")) == from_here
    program = prefix / "lib/dmf/dmf"
    assert program.read_bytes() == (ROOT / "crates/dmf/out/dmf").read_bytes()
    judge_words(prefix / "bin/dmf", program)
    used = ran(
        "/usr/bin/python3",
        "-c",
        SCRIPT,
        folder=tmp_path,
        PYTHONPATH=str(prefix / "share/dmf/python"),
    )
    assert used.split()[1:] == [str(program), f"{prefix}/lib/libdmf.so.0", "2"]
    ran("./install", "--prefix", prefix, "--remove", folder=unpacked)
    assert not prefix.exists()
