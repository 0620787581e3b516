"""How the tools of a desk open a table."""

from __future__ import annotations

import argparse
import gc
from pathlib import Path
from typing import Any

import pytest
from client_shared import dmf
from dmf.tables.loader import read_subject
from dmf.tools import desk_options
from dmf.tools.options import add_words, words_of


def words(path: Path) -> argparse.Namespace:
    parser = argparse.ArgumentParser()
    add_words(parser)
    desk_options.add_project_words(parser)
    return words_of(parser, [str(path)])


def test_garbage_is_collected_again(tmp_path: Path, monkeypatch: pytest.MonkeyPatch) -> None:
    """While a table is read nothing looks for garbage; after it, or after a fault, it does."""
    path = tmp_path / "t.csv"
    path.write_text("from,to,capacity\nA,B,5\n")
    seen = []

    def watched(given: argparse.Namespace, **others: Any) -> object:
        seen.append(gc.isenabled())
        return read_subject(given, **others)

    monkeypatch.setattr("dmf.tables.loader.read_subject", watched)
    desk = desk_options.open_desk(words(path), with_solve=True)
    desk.end()
    assert seen == [False] and gc.isenabled()
    path.write_text("from,to,capacity\nA,B,five\n")
    with pytest.raises(dmf.TableFault):
        desk_options.open_desk(words(path), with_solve=True)
    assert seen == [False, False] and gc.isenabled()
