"""What the scripts of this folder share: the cache folder, the drivers that are built there, and
the networks."""

from __future__ import annotations

import os
import shutil
import subprocess
import sys
from pathlib import Path

BENCH = Path(__file__).resolve().parent
DMF = BENCH.parent / "crates/dmf/out/dmf"
CACHE = Path(os.environ.get("DMF_BENCH_CACHE") or Path.home() / ".cache/dmf-bench")
SEED = 1990
# The families of generate.cpp that the scripts name.
FAMILIES = [
    "grid",
    "random",
    "road",
    "street",
    "bip",
    "ac",
    "rmf-wide",
    "wash-wide",
    "rmf-long",
    "wash-long",
]
# The arcs of those that bench/run measures at only one size: paths of every length, and reading
# alone.
ONE_SIZE = {"ak": 24_619, "combs": 30_000, "easy": 5_000_000}

# For each driver: the Debian package that it needs, a file of the package, and what it is linked
# with.
PACKAGES: dict[str, tuple[str, str, list[str]]] = {
    "lemon": ("liblemon-dev", "/usr/include/lemon/preflow.h", []),
    "boost": ("libboost-graph-dev", "/usr/include/boost/graph/push_relabel_max_flow.hpp", []),
    "igraph": (
        "libigraph-dev",
        "/usr/include/igraph/igraph.h",
        ["-I/usr/include/igraph", "-ligraph"],
    ),
    "maxflow": (
        "libmaxflow-dev",
        "/usr/include/maxflow-3.0/maxflow.h",
        ["-I/usr/include/maxflow-3.0"],
    ),
    "glpsol": ("glpk-utils", "/usr/bin/glpsol", []),
    "scipy": ("python3-scipy", "/usr/lib/python3/dist-packages/scipy/__init__.py", []),
    "networkx": ("python3-networkx", "/usr/lib/python3/dist-packages/networkx/__init__.py", []),
}


def is_there(driver: str) -> bool:
    """Return True if a driver's package is installed. Root installs it."""
    package, file, _ = PACKAGES[driver]
    if not Path(file).exists() and os.geteuid() == 0 and shutil.which("apt-get"):
        print(f"installing {package}", file=sys.stderr)
        command = ["apt-get", "install", "-y", "--no-install-recommends", package]
        environment = {**os.environ, "DEBIAN_FRONTEND": "noninteractive"}
        subprocess.run(
            command, stdout=subprocess.DEVNULL, stderr=subprocess.DEVNULL, env=environment
        )
    if not Path(file).exists():
        print(f"skipped: {driver}, since {package} is not installed", file=sys.stderr)
        return False
    return True


def library() -> Path:
    """Return the C library, which is unpacked if it is missing."""
    told = subprocess.run(
        [BENCH.parent / "tools/prebuilt", "library"], stdout=subprocess.PIPE, text=True, check=True
    )
    return Path(told.stdout.rstrip("\n"))


def driver(name: str) -> Path:
    """Return the driver of a library, which is compiled first unless it is a script."""
    script = BENCH / f"by_{name}"
    return script if script.exists() else build(name)


def build(name: str, *more: str) -> Path:
    """Compile a program of this folder, as a packager would, with more words for the compiler, and
    return its path."""
    source, program = BENCH / f"{name}.cpp", CACHE / name
    sources = [source, *BENCH.glob("*.hpp")]
    if (
        not program.exists()
        or max(file.stat().st_mtime for file in sources) > program.stat().st_mtime
    ):
        CACHE.mkdir(parents=True, exist_ok=True)
        flags = PACKAGES.get(name, ("", "", []))[2]
        subprocess.run(
            ["g++", "-O2", "-DNDEBUG", "-std=c++17", "-o", program, source, *flags, *more],
            check=True,
        )
    return program


def usual_arcs(family: str) -> int:
    """Return how many arcs a family's network has where sessions are measured."""
    return 360_000 if family == "street" else 1_000_000


def network(family: str, arcs: int) -> Path:
    """Return the file of a network. It is made if it is missing or its generator has changed."""
    # Imported here: it takes 4 MB, which bench/client would count as Python's.
    import hashlib

    makers = b"".join((BENCH / name).read_bytes() for name in ("generate.cpp", "dimacs.hpp"))
    file = CACHE / f"networks-{hashlib.sha256(makers).hexdigest()[:8]}" / f"{family}-{arcs}.max"
    if not file.exists():
        generate = build("generate")
        file.parent.mkdir(exist_ok=True)
        unfinished = file.with_suffix(".part")
        with unfinished.open("wb") as text:
            subprocess.run([generate, family, str(arcs), str(SEED)], stdout=text, check=True)
        unfinished.rename(file)
    return file
