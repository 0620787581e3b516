"""Files that are uploaded to an import: what is kept, and what is refused."""

from __future__ import annotations

import resource
import socket
from pathlib import Path
from typing import Any

import pytest
from board_running import JSON, board
from built import heed_interrupts
from dmf.desk.board.import_options import nothing_said
from import_pages import DROP, ImportPage
from import_requests import BYTES, OPEN, PLAIN, asked, importing, sent

pytestmark = pytest.mark.seconds(10)
MOST = 1 << 28


def test_upload(tmp_path: Path) -> None:
    """A file that is dropped is kept in the folder, and read; the same one again is the one that is
    there, and another one with its name is refused. What was said of another table is reset."""
    with importing(tmp_path, OPEN, "--capacity", "Length (m)") as it:
        assert it.told("import")["options"]["capacity"] == "Length (m)"
        name = "caf\u00e9 #1.csv"
        for _ in range(2):
            status, view = sent(it, name, PLAIN.encode())
            assert (status, view["options"]) == (200, nothing_said())
            assert (view["file"]["name"], view["file"]["folder"]) == (name, str(tmp_path))
            assert "encoding" in [setting["option"] for setting in view["settings"]]
            assert view["answer"]["said"] == "40 can be sent from Res to Town"
        assert (tmp_path / name).read_bytes() == PLAIN.encode()
        status, told = sent(it, name, b"other")
        assert status == 409 and "already exists" in told["error"]
        assert it.told("import")["file"]["name"] == name
        status, view = sent(it, "picture.csv", b"\x89PNG\r\n\x1a\n\0\0")
        assert status == 200 and view["faults"] and view["answer"] is None
        assert asked(it, "open", {})[0] == 409


HOSTILE = [
    "",
    ".",
    "..",
    "../x.csv",
    "/etc/x.csv",
    "a/b.csv",
    "a\\b.csv",
    ".bashrc",
    "a\nb.csv",
    "a\0b.csv",
    "a\u202eb.csv",
    "x" * 256 + ".csv",
    "net.dmf.json",
    "folder",
    "nowhere.csv",
]


def test_hostile_uploads(tmp_path: Path) -> None:
    """No name leads out of the folder, or to what is no file; nothing is written."""
    folder = tmp_path / "in"
    (folder / "folder").mkdir(parents=True)
    (folder / "nowhere.csv").symlink_to(tmp_path / "outside.csv")
    with importing(folder) as it:
        assert it.told("import")["file"] is None
        before = sorted(tmp_path.rglob("*"))
        for name in HOSTILE:
            status, told = sent(it, name, PLAIN.encode())
            assert status == 409 and told["error"], name
        path = f"{it.root}upload"
        assert (
            it.ask(path, b"x", **BYTES)[0] == it.ask(f"{path}?name=a&b=c", b"x", **BYTES)[0] == 400
        )
        assert it.ask(f"{path}?name=a.csv", b"x", **JSON)[0] == 400
        for length in str(MOST + 1), "-1", "x", "9" * 30:
            assert sent(it, "a.csv", b"", Content_Length=length)[0] == 400
        assert sorted(tmp_path.rglob("*")) == before
        assert asked(it, "open", {})[0] == 409
        assert it.told("import")["command"] == "dmf board"


def test_broken_upload(tmp_path: Path) -> None:
    """A file of which a part is sent alone is not kept."""
    with importing(tmp_path) as it:
        with socket.create_connection(("127.0.0.1", it.port)) as line:
            head = f"POST {it.root}upload?name=a.csv HTTP/1.1\r\nHost: {it.host}\r\n"
            head += "Content-Type: application/octet-stream\r\nContent-Length: 100\r\n\r\n"
            line.sendall(head.encode() + b"from,to")
            line.shutdown(socket.SHUT_WR)
            assert b" 400 " in line.recv(1 << 12)
        assert list(tmp_path.iterdir()) == []


def test_stop_while_a_file_is_sent(tmp_path: Path) -> None:
    """The board has nothing to stop and says so; once the page ends the sending, nothing of the
    file is kept, and the import is what it was."""
    with importing(tmp_path, PLAIN) as it:
        before = it.told("import")
        with socket.create_connection(("127.0.0.1", it.port)) as line:
            head = f"POST {it.root}upload?name=a.csv HTTP/1.1\r\nHost: {it.host}\r\n"
            head += "Content-Type: application/octet-stream\r\nContent-Length: 100\r\n\r\n"
            line.sendall(head.encode() + b"from,to")
            assert asked(it, "stop", {}) == (200, {"is_stopped": False})
        assert it.told("import") == before
        assert [path.name for path in tmp_path.iterdir()] == ["s.csv"]
        assert sent(it, "b.csv", PLAIN.encode())[1]["file"]["name"] == "b.csv"


# How many bytes a slow line takes in a second, and what it takes four minutes for, in bytes.
SLOW = {"offline": False, "latency": 0, "downloadThroughput": -1, "uploadThroughput": 5_000}
LONG = 1_200_000


def test_stop_on_the_page(driver: Any, tmp_path: Path) -> None:
    """Stop ends the sending of a file over a slow line. The page shows what it did before, and
    takes another file."""
    with importing(tmp_path, PLAIN) as it:
        page = ImportPage(driver, it.address)
        page.says("40 can be sent from Res to Town")
        driver.execute_cdp_cmd("Network.enable", {})
        try:
            driver.execute_cdp_cmd("Network.emulateNetworkConditions", SLOW)
            driver.execute_script(DROP, [["long.csv", PLAIN * (LONG // len(PLAIN))]])
            page.wait(lambda: driver.find_element("id", "long").is_displayed())
            driver.find_element("id", "end").click()
            page.settle()
        finally:
            driver.execute_cdp_cmd(
                "Network.emulateNetworkConditions", {**SLOW, "uploadThroughput": -1}
            )
        page.says("40 can be sent from Res to Town")
        assert page.text("#title") == "s.csv" and not page.text("#trouble") + page.text("#news")
        assert not driver.find_element("id", "long").is_displayed()
        assert [path.name for path in tmp_path.iterdir()] == ["s.csv"]
        driver.execute_script(DROP, [["other.csv", PLAIN.replace("40", "30")]])
        page.says("30 can be sent from Res to Town")
        assert page.text("#title") == "other.csv"


def test_no_room(tmp_path: Path) -> None:
    """Where the disk takes no more, nothing is left of the file."""

    def limit() -> None:
        heed_interrupts()
        resource.setrlimit(resource.RLIMIT_FSIZE, (1 << 16, 1 << 16))

    with board("--import", cwd=tmp_path, preexec=limit) as it:
        status, told = sent(it, "a.csv", b"x" * (1 << 17))
        assert status == 409 and "cannot be written" in told["error"]
        assert list(tmp_path.iterdir()) == []
        assert sent(it, "b.csv", PLAIN.encode())[0] == 200
