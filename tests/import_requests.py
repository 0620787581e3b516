"""The requests of the page on which a table is imported, and two tables for it."""

from __future__ import annotations

import json
from pathlib import Path
from typing import Any
from urllib.parse import quote

from board_running import JSON, Board, board
from dmf.desk.board.import_options import nothing_said

# From Res over A to Town: 40 by the flows, and 900 by the lengths. No title says which they are.
OPEN = "Start node,End node,Length (m),Q [m\u00b3/h]\nRes,A,1200,50\nA,Town,900,40\n"
PLAIN = "from,to,capacity\nRes,A,50\nA,Town,40\n"
BYTES = {"Content-Type": "application/octet-stream"}


def importing(folder: Path, text: str = "", *words: str, name: str = "s.csv") -> Any:
    """Return a board that begins with the import of a table, or of none, in this folder."""
    if text:
        (folder / name).write_text(text, encoding="utf-8")
    return board("--import", *([name] if text else []), *words, cwd=folder)


def asked(it: Board, path: str, content: object) -> tuple[int, Any]:
    """Post a request, and return the answer."""
    status, _, told = it.ask(it.root + path, json.dumps(content).encode(), **JSON)
    return status, json.loads(told)


def said(it: Board, **options: object) -> Any:
    """Set these options and no others, and return the view."""
    status, view = asked(it, "import", {"options": {**nothing_said(), **options}})
    assert status == 200, view
    return view


def sent(it: Board, name: str, data: bytes, of: str = "", **headers: str) -> tuple[int, Any]:
    """Upload a file, alone or as a part of the file `of`, and return the answer."""
    path = f"{it.root}upload?name={quote(name, safe='')}{f'&of={of}' if of else ''}"
    status, _, told = it.ask(path, data, **{**BYTES, **headers})
    return status, json.loads(told)
