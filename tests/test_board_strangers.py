"""dmf-board among other programs: a request that does not come from the board's own page reads
nothing, and changes nothing."""

from __future__ import annotations

import re
from pathlib import Path
from typing import Any, Optional

from board_running import JSON, Board, board
from desk_shared import PIPES, run


def test_strangers() -> None:
    """Who has not the token, names another host, or comes from another origin gets nothing, and
    changes nothing."""
    close = b'{"what": "close", "arc": 1, "turn": 1}'
    with board(PIPES) as it:
        strangers: list[tuple[str, dict[str, Any]]]
        strangers = [
            ("/", {}),
            ("/x/", {}),
            (it.root[:-2] + "/", {}),
            (f"/x{it.root}", {}),
            ("*", {}),
        ]
        hosts = [
            "evil.example",
            f"evil.example:{it.port}",
            "127.0.0.1",
            f"127.0.0.1:{it.port + 1}",
            "",
            None,
        ]
        strangers += [(it.root, {"Host": host}) for host in hosts]
        strangers += [
            (it.root, {"Origin": origin})
            for origin in (
                "http://evil.example",
                "null",
                f"https://{it.host}",
                "http://127.0.0.1:1",
            )
        ]
        strangers += [(it.root, {"Sec_Fetch_Site": site}) for site in ("cross-site", "same-site")]
        for root, headers in strangers:
            for path, body in (
                ("", None),
                ("state", None),
                ("do", close),
                ("life", None),
                ("main.js", None),
            ):
                status, sent, told = it.ask(
                    root + path, body, **{"Content_Type": "application/json", **headers}
                )
                is_shut = (
                    status in (400, 403)
                    and b"165" not in told
                    and "Access-Control-Allow-Origin" not in sent
                )
                assert is_shut, f"{root} {path} {headers}: {status}, {told!r:.300}"
        state = it.state()
        assert (state["value"], len(state["steps"])) == (
            "165",
            1,
        ), f"after strangers: {state!s:.300}"
        for host in it.host, f"localhost:{it.port}":
            status, _, _ = it.ask(
                it.root + "do",
                b'{"what": "close", "arc": 12, "turn": 1}',
                Host=host,
                Origin=f"http://{host}",
                **JSON,
            )
            # The second time this is another turn.
            assert status == (200 if host == it.host else 409), host
        status, sent, page = it.ask(it.root)
        policy = sent.get("Content-Security-Policy", "")
        is_strict = (
            policy.startswith(
                "default-src 'none'; script-src 'self'; style-src 'self'; img-src blob:; "
                "connect-src 'self'; "
            )
            and "unsafe" not in policy
        )
        assert (
            status == 200 and is_strict and sent.get("Referrer-Policy") == "no-referrer"
        ), f"the page: {status}, {sent}"
        assert len(page) <= 100_000, f"the page has {len(page)} bytes"
        scripts = re.findall(rb'(?:src|href)="([a-z]+[.](?:js|css))"', page)
        assert (re.search(rb'(src|href)="?(https?:)?//', page), scripts) == (
            None,
            [b"style.css", b"main.js"],
        )
        judge_scripts(it)
        bound = [
            line.split()[1]
            for line in Path("/proc/net/tcp").read_text().splitlines()[1:]
            if line.split()[3] == "0A"
        ]
        assert [at for at in bound if at.endswith(f":{it.port:04X}")] == [
            f"0100007F:{it.port:04X}"
        ], f"it listens at {bound}"


def judge_scripts(it: Board) -> None:
    """The page's scripts are its own files, which have nothing of the network, and each script that
    one of them imports is there. Nothing else is a script to a browser."""
    kinds: dict[str, str] = {}
    left = ["main.js"]
    while left:
        name = left.pop()
        status, sent, told = it.ask(it.root + name)
        assert (status, sent["X-Content-Type-Options"], b"Reservoir" in told) == (
            200,
            "nosniff",
            False,
        ), name
        kinds[name] = sent["Content-Type"]
        left += [
            found
            for found in re.findall(r'from "[.]/(\w+[.]js)"', told.decode())
            if found not in kinds and found not in left
        ]
    assert len(kinds) > 5 and set(kinds.values()) == {"text/javascript; charset=utf-8"}
    for path in "state", "picture?near=", "plan.csv?turn=2", "arc?number=1", "style.css", "":
        assert "script" not in it.ask(it.root + path)[1]["Content-Type"], path
    for path in (
        "../board.py",
        "%2e%2e/board.py",
        "page/main.js",
        "main.js/",
        "Main.js",
        "tsconfig.json",
    ):
        assert it.ask(it.root + path)[0] in (400, 404), path


def test_side_doors() -> None:
    """What leads to a page of the board from another site may show the page, and do nothing
    else."""
    with board(PIPES) as it:
        opened: dict[str, Any] = {
            "Sec_Fetch_Site": "cross-site",
            "Sec_Fetch_Mode": "navigate",
            "Sec_Fetch_Dest": "document",
        }
        assert it.ask(it.root, **opened)[0] == 200
        wrong: list[tuple[str, Optional[bytes], dict[str, Any]]]
        wrong = [
            (it.root + "state", None, {}),
            (it.root + "do", b'{"what": "close", "arc": 1, "turn": 1}', {}),
            ("/", None, {}),
        ]
        wrong += [
            (it.root, None, {"Sec_Fetch_Dest": "iframe"}),
            (it.root, None, {"Sec_Fetch_Mode": "no-cors"}),
        ]
        for path, body, changed in wrong:
            headers: dict[str, Any] = {**opened, **changed, **JSON}
            assert it.ask(path, body, **headers)[0] == 403, (path, changed)
        assert it.state()["value"] == "165"


def test_way_in() -> None:
    """Without the whole address there is a page that says how to get in; a tunnel by another name
    or port may be let in."""
    with board(PIPES) as it:
        for path, host in ("/", it.host), ("/x", "evil.example"), (it.root, "localhost:9000"):
            status, sent, told = it.ask(path, Host=host)
            is_page = (
                sent["Content-Type"].startswith("text/html")
                and b"printed its address where it was started" in told
            )
            assert (status, is_page, it.root.encode() in told) == (403, True, False), (
                path,
                host,
                told,
            )
        assert b"--host-name" in told
    names = [
        "--host-name",
        "LocalHost:9000",
        "--host-name",
        "board.example",
        "--host-name",
        "[::1]:9000",
    ]
    with board(PIPES, *names) as it:
        addresses = [
            f"http://{host}{it.root}"
            for host in ("localhost:9000", f"board.example:{it.port}", "[::1]:9000")
        ]
        assert (
            it.process.stdout
            and [it.process.stdout.readline().strip() for _ in addresses] == addresses
        )
        for host, wanted in (
            (it.host, 200),
            ("localhost:9000", 200),
            ("board.example", 200),
            (f"board.example:{it.port}", 200),
            ("[::1]:9000", 200),
            ("127.0.0.1:9000", 403),
            ("board.example:9000", 403),
            ("evil.example", 403),
            (f"localhost:{it.port}", 200),
        ):
            assert it.ask(it.root + "state", Host=host)[0] == wanted, host
    for name in "a b", "http://x", "x:y", "":
        assert run("dmf-board", "--host-name", name, PIPES).returncode == 2, name
