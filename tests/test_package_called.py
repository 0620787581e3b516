"""./package as it is called: its words, the same bytes from each copy of the tree, and where it
makes nothing."""

from __future__ import annotations

import shutil
from pathlib import Path

import pytest
from conftest import ROOT
from package_runs import ran, run
from trees import commit_all, copy_tracked

pytestmark = pytest.mark.seconds(20)


def test_the_same_elsewhere(tmp_path: Path) -> None:
    """Two copies of the tree give the same bytes, whatever lies beside what git tracks, in whatever
    order and with whatever modes."""
    contents = []
    for name in "one", "another place":
        tree, output = tmp_path / name / "tree", tmp_path / name / "made"
        copy_tracked(tree)
        commit_all(tree)
        if name != "one":
            for stray in "answer.txt", "water/names.txt", "water/note.csv", "README.md":
                (tree / "examples" / stray).write_text("left by a story\n")
            (tree / "clients/python/dmf/stray.py").write_text("left\n")
            (tree / "docs/dmf-stray.1").write_text("left\n")
            (tree / "tools/dmf-stray").write_text("#!/bin/sh\n")
            (tree / "LICENSE").chmod(0o600)
        ran("./package", "--output", output, folder=tree)
        contents.append({path.name: path.read_bytes() for path in output.iterdir()})
    assert len(contents[0]) == 6 and contents[0] == contents[1]


def test_not_a_checkout(tmp_path: Path) -> None:
    """Without git nobody knows what belongs to dmf."""
    shutil.copy(ROOT / "package", tmp_path)
    done = run("./package", folder=tmp_path, GIT_CEILING_DIRECTORIES=str(tmp_path.parent))
    assert (done.returncode, done.stdout, (tmp_path / "out").exists()) == (1, "", False)
    assert (
        "is not a git checkout, which would say which files belong to dmf; nothing was made"
        in done.stderr
    )


def test_plain_links(tmp_path: Path) -> None:
    """What leads nowhere keeps its words."""
    (tmp_path / "docs").mkdir()
    (tmp_path / "docs/b.md").touch()
    for text, wanted in (
        ("See [b](docs/b.md), [c](docs/c.md).", "See [b](docs/b.md), c."),
        (
            "[b](docs/b.md#a-b) [c](docs/c.md#a-b) [folder](docs) [none](none)",
            "[b](docs/b.md#a-b) c [folder](docs) none",
        ),
        (
            "![picture](x.png) [web](https://x.org/y) [here](#below) [`code`](../y.rs)",
            "picture [web](https://x.org/y) [here](#below) `code`",
        ),
        ("a[0](x) array[1] (docs/c.md)", "a0 array[1] (docs/c.md)"),
    ):
        (tmp_path / "page.md").write_text(text)
        ran("python3", "tools/plain_links.py", tmp_path)
        assert (tmp_path / "page.md").read_text() == wanted


def test_words(tmp_path: Path) -> None:
    for words in ["--deb"], ["--output"], ["--output="]:
        done = run("./package", *words)
        assert (done.returncode, done.stdout, "Usage: package" in done.stderr) == (2, "", True)
    assert "--archive" in ran("./package", "--help")
    # A machine that has no dpkg-deb.
    few = tmp_path / "bin"
    few.mkdir()
    for path in Path("/usr/bin").iterdir():
        if not path.name.startswith("dpkg"):
            (few / path.name).symlink_to(path)
    done = run("./package", "--output", tmp_path / "none", PATH=str(few))
    assert (done.returncode, done.stdout, (tmp_path / "none").exists()) == (1, "", False)
    assert "dpkg-deb is not installed; nothing was made" in done.stderr
    ran("./package", "--archive", "--output", tmp_path / "one", PATH=str(few))
    assert sorted(path.suffix for path in (tmp_path / "one").iterdir()) == ["", ".gz"]
    ran("sha256sum", "-c", "SHA256SUMS", folder=tmp_path / "one")
