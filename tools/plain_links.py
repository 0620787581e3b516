#!/usr/bin/env python3
"""Turn each link that leads to no file or folder into plain text, in the Markdown pages below a
folder.

    python3 tools/plain_links.py FOLDER
"""

from __future__ import annotations

import re
import sys
from pathlib import Path

# A link into the folder, such as [text](path#heading). A picture has a `!` in front.
LINK = re.compile(r"(!?)\[([^]\[]*)\]\((?![a-z]+:|#)([^()#\s]+)(?:#[^()\s]*)?\)")


def plain(text: str, folder: Path) -> str:
    """Return the text of a page in a folder, with only the links that lead somewhere."""
    return LINK.sub(lambda link: link[0] if (folder / link[3]).exists() else link[2], text)


def main(folder: Path) -> None:
    for page in folder.rglob("*.md"):
        page.write_text(plain(page.read_text(encoding="utf-8"), page.parent), encoding="utf-8")


if __name__ == "__main__":
    main(Path(sys.argv[1]))
