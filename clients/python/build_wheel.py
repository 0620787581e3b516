"""Build the wheel of the package `dmf` for pip, which calls these functions by their names in PEP
517. This needs only Python.

The wheel contains the executable and the C library, if this machine can use them, and the tools as
commands.
"""

from __future__ import annotations

import base64
import gzip
import hashlib
import io
import platform
import re
import subprocess
import sys
import sysconfig
import tarfile
import zipfile
from pathlib import Path
from typing import Any

HERE = Path(__file__).resolve().parent
# A source archive has beside this file what the repository has above it.
ROOT = HERE if (HERE / "PKG-INFO").is_file() else HERE.parents[1]
# The paths of the executable, the C library and its headers in the wheel and in a source archive.
INSIDE, LIBRARY, HEADERS = "dmf/bin/dmf", "dmf/bin/libdmf.so.0", ("dmf.h", "dmf.hpp")


def version() -> str:
    """Return the version of the package."""
    (found,) = re.findall(
        r'^__version__ = "(.*)"$', (HERE / "dmf" / "__init__.py").read_text(), re.MULTILINE
    )
    return str(found)


def licence() -> bytes:
    """Return the licence, which lies at the root."""
    try:
        return (ROOT / "LICENSE").read_bytes()
    except FileNotFoundError:
        raise RuntimeError(
            f"{HERE} is not in its repository; pip before 21.3 builds it there with "
            "--use-feature=in-tree-build"
        ) from None


def metadata() -> bytes:
    """Return the metadata of the package."""
    lines = [
        "Metadata-Version: 2.1",
        "Name: dmf",
        f"Version: {version()}",
        "License: MIT",
        "License-File: LICENSE",
    ]
    lines += [
        "Summary: Maximum flows and what-if sessions, by the program dmf",
        "Requires-Python: >=3.9",
    ]
    lines += [
        "Provides-Extra: tables",
        *(f"Requires-Dist: {name}; extra == 'tables'" for name in ("odfpy", "charset-normalizer")),
    ]
    return "".join(f"{line}\n" for line in lines).encode()


def package() -> dict[str, bytes]:
    """Return the files of the package."""
    files = sorted(
        file
        for file in (HERE / "dmf").rglob("*.*")
        if file.suffix in (".py", ".typed", ".txt", ".html", ".css", ".js")
    )
    return {str(file.relative_to(HERE)): file.read_bytes() for file in files}


def executable() -> dict[str, bytes]:
    """Return the executable, if there is one that runs here: that of a source archive, or that of
    the repository, which is built if necessary."""
    inside = HERE / INSIDE
    call, path = (
        (inside, inside) if inside.is_file() else (ROOT / "dmf", ROOT / "crates/dmf/out/dmf")
    )
    try:
        told = subprocess.run(
            [call, "--version"], stdin=subprocess.DEVNULL, stdout=subprocess.PIPE
        ).stdout
    except OSError:
        told = b""
    if told != f"dmf {version()}\n".encode():
        print("dmf: no program runs on this machine, so what is built has none", file=sys.stderr)
        return {}
    if not path.is_file():
        # If the repository cannot be written, the executable lies elsewhere.
        take = subprocess.run(
            [ROOT / "tools/prebuilt", "take"], stdout=subprocess.PIPE, text=True, check=True
        )
        path = Path(take.stdout.rstrip("\n"))
    return {INSIDE: path.read_bytes(), **library()}


def library() -> dict[str, bytes]:
    """Return the C library and its headers, if it is up to date with these sources: that of a
    source archive, or that of the repository. Without it, the package runs the executable."""
    for path in HERE / LIBRARY, *(
        [] if (ROOT / "tools/prebuilt").is_file() else [ROOT / "crates/dmf_c/out/libdmf.so.0"]
    ):
        if path.is_file():
            return {LIBRARY: path.read_bytes(), **headers()}
    try:
        take = subprocess.run(
            [ROOT / "tools/prebuilt", "library"], stdout=subprocess.PIPE, text=True
        )
    except OSError:
        return {}
    return (
        {LIBRARY: Path(take.stdout.rstrip("\n")).read_bytes(), **headers()}
        if take.returncode == 0
        else {}
    )


def headers() -> dict[str, bytes]:
    """Return the headers, for programs in C and C++ that use the library in the wheel."""
    return {
        f"dmf/include/{name}": path.read_bytes()
        for name in HEADERS
        for path in (HERE / "dmf/include" / name, ROOT / "include" / name)
        if path.is_file()
    }


def tools() -> dict[str, bytes]:
    """Return the tools as commands, which pip runs with the Python of its environment."""
    return {
        tool.name: re.sub(rb"\A#!.*", b"#!python", tool.read_bytes())
        for tool in sorted((ROOT / "tools").glob("dmf-*"))
    }


def tag(program: bytes) -> str:
    """Return the tag for the systems on which a wheel with this executable and library works: those
    with glibc in the latest version whose symbols they name, or later."""
    if not program:
        return "py3-none-any"
    needed = [int(minor) for minor in re.findall(rb"GLIBC_2\.(\d+)", program)]
    if needed:
        return f"py3-none-manylinux_2_{max(needed)}_{platform.machine()}"
    return f"py3-none-{re.sub('[-.]', '_', sysconfig.get_platform())}"


def build_wheel(
    wheel_directory: str, config_settings: Any = None, metadata_directory: Any = None
) -> str:
    """Write the wheel, and return its name. The same files give the same bytes."""
    base, program = f"dmf-{version()}", executable()
    info, commands = f"{base}.dist-info", {
        f"{base}.data/scripts/{name}": content for name, content in tools().items()
    }
    if program:
        commands[f"{base}.data/scripts/dmf"] = re.sub(
            rb"\A#!.*", b"#!python", (HERE / "command.py").read_bytes()
        )
    kind = tag(b"".join(program.values()))
    about = (
        f"Wheel-Version: 1.0\nGenerator: dmf\nRoot-Is-Purelib: {str(not program).lower()}\nTag: "
        f"{kind}\n"
    )
    files = {
        **package(),
        **program,
        **commands,
        f"{info}/METADATA": metadata(),
        f"{info}/WHEEL": about.encode(),
        f"{info}/LICENSE": licence(),
    }
    record = "".join(
        f"{name},sha256={_sum(content)},{len(content)}\n" for name, content in files.items()
    )
    files[f"{info}/RECORD"] = f"{record}{info}/RECORD,,\n".encode()
    with zipfile.ZipFile(Path(wheel_directory) / f"{base}-{kind}.whl", "w") as wheel:
        for name, content in files.items():
            member = zipfile.ZipInfo(name, (1980, 1, 1, 0, 0, 0))
            member.external_attr = (
                0o100755 if name == INSIDE or name in commands else 0o100644
            ) << 16
            wheel.writestr(member, content, zipfile.ZIP_DEFLATED)
    return f"{base}-{kind}.whl"


def _sum(content: bytes) -> str:
    return base64.urlsafe_b64encode(hashlib.sha256(content).digest()).rstrip(b"=").decode()


def build_sdist(sdist_directory: str, config_settings: Any = None) -> str:
    """Write the source archive, with the executable if there is one, and return its name. The same
    files give the same bytes."""
    base, program = f"dmf-{version()}", executable()
    files = {**package(), **program, "PKG-INFO": metadata(), "LICENSE": licence()}
    files.update(
        (name, (HERE / name).read_bytes())
        for name in ("pyproject.toml", "build_wheel.py", "command.py")
    )
    files.update(
        (f"tools/{tool.name}", tool.read_bytes()) for tool in sorted((ROOT / "tools").glob("dmf-*"))
    )
    text = io.BytesIO()
    with tarfile.open(fileobj=text, mode="w") as archive:
        for name, content in files.items():
            member = tarfile.TarInfo(f"{base}/{name}")
            member.size, member.mode = len(content), 0o755 if name == INSIDE else 0o644
            archive.addfile(member, io.BytesIO(content))
    (Path(sdist_directory) / f"{base}.tar.gz").write_bytes(gzip.compress(text.getvalue(), mtime=0))
    return f"{base}.tar.gz"
