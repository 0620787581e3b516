"""Build a static library on the crates that `rt ci` has just proved and left in their out/; `rt
lib` would prove each of them again.

    python3 tools/over_proved.py KIT ROOT CRATE

KIT is the toolchain's folder, ROOT the repository's folder, and CRATE the library's crate, which is
proved here from scratch. The status is 0 if the library was built, and 2 if out/ has no work of `rt
ci`.
"""

from __future__ import annotations

import importlib
import os
import sys
from typing import Any


def main(kit: str, root: str, name: str) -> int:
    sys.dont_write_bytecode = True
    sys.path.insert(0, f"{kit}/bin")
    # The module behind the toolchain's command `rt`.
    rtlib: Any = importlib.import_module("rtlib")
    crate = next(it for it in rtlib.crates_below(root) if it.name == name)
    # Other commands leave a stamp, which says what sources their work was made from.
    if not all(
        os.path.isdir(it.rlib) and not os.path.exists(f"{it.folder}/out/rlib/stamp")
        for it in crate.below()
    ):
        return 2
    # Otherwise the check would start from what an earlier one left in out/, and its own jobs would
    # leave work there for each other.
    rtlib.KEPT = []
    os.makedirs(f"{crate.folder}/out", exist_ok=True)
    return int(crate.build_static(["--jobs", "2"]))


if __name__ == "__main__":
    sys.exit(main(*sys.argv[1:]))
