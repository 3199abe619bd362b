"""Who may come, what is served to whom, and how the go-between ends."""

import asyncio
import os
import signal
import socket
import subprocess

import aiohttp
import pytest

from tests.kit import paths
from tests.kit.go_between import FROM_ONE, GoBetween
from tests.kit.ports import free_port
from tests.kit.running import Run

from .asked import Answer, asked
from .played import Played
from .tabs import PATIENCE

pytestmark = pytest.mark.words(*FROM_ONE, "--host", "club", "--host", "club.example")

TABS = 256
PATHS_OF_NOTHING = (
    "/x.html",
    "/../secret.txt",
    "/%2e%2e/secret.txt",
    "/..%2fsecret.txt",
    "//etc/passwd",
    "/etc/passwd",
    "/%00",
    "/notes.py",
    "/out.txt",
    "/" + "a" * 5000,
)


async def get(played: Played, path: str, **headers: str) -> Answer:
    """A file, at exactly this path, of a go-between of that name."""
    return await asked(played.go_between.port, path, "club:80", **headers)


async def test_files_their_types_and_headers(played: Played) -> None:
    played.page.joinpath("lines.js").write_text("export {}")
    played.page.joinpath("men").mkdir()
    played.page.joinpath("men", "king.svg").write_text("<svg/>")
    for path, kind, body in (
        ("/", "text/html", "<title>A page</title>"),
        ("/?plain", "text/html", "<title>A page"),
        ("/index.html", "text/html", "<title>"),
        ("/lines.js", "text/javascript", "export {}"),
        ("/men/king.svg", "image/svg+xml", "<svg/>"),
    ):
        status, headers, text = await get(played, path)
        assert (status, headers["content-type"].split(";")[0]) == (200, kind)
        assert text.startswith(body)
        check_headers(headers)
    again = await get(played, "/lines.js", If_None_Match=headers["etag"])
    assert again.status == 200
    status, headers, text = await get(played, "/lines.js", If_None_Match=again.headers["etag"])
    assert (status, text) == (304, "")
    check_headers(headers)


def check_headers(headers: dict[str, str]) -> None:
    assert headers["cache-control"] == "no-cache"
    assert "default-src 'self'" in headers["content-security-policy"]
    assert "frame-ancestors 'none'" in headers["content-security-policy"]
    assert headers["x-content-type-options"] == "nosniff"
    assert headers["x-frame-options"] == "deny"


async def test_nothing_outside_the_folder(played: Played) -> None:
    outside = played.page.parent / "secret.txt"
    outside.write_text("secret")
    played.page.joinpath("out.txt").symlink_to(outside)
    played.page.joinpath("notes.py").write_text("secret")
    for path in PATHS_OF_NOTHING:
        status, headers, text = await get(played, path)
        assert status == 404, path
        assert "secret" not in text
        check_headers(headers)


async def test_origins(played: Played) -> None:
    host = f"127.0.0.1:{played.go_between.port}"
    for origin in (None, f"http://{host}", f"https://{host}"):
        await played.link(**({"origin": origin} if origin else {}))
    tab = await played.tabs.open(origin="https://Club.example", headers={"Host": "club.example"})
    await tab.close()
    for origin in (
        "http://evil.example",
        "http://127.0.0.1",
        f"http://{host}.evil.example",
        "null",
        f"http://127.0.0.1:{played.go_between.port + 1}",
        "http://[",
        host,
        "",
    ):
        assert await played.tabs.refused(origin=origin, headers={"Origin": origin}) == 403, origin


async def test_what_is_no_websocket(played: Played) -> None:
    status, _, text = await get(played, "/link")
    assert (status, text) == (400, "a link is a WebSocket")


async def test_256_tabs_and_no_more(played: Played) -> None:
    tab, end = await played.link()
    await asyncio.gather(*(played.tabs.open() for _ in range(TABS - 1)))
    assert await played.tabs.refused() == 503
    await tab.close()
    assert await end.line() == b""
    await played.tabs.open()


async def test_the_end_of_the_server(played: Played) -> None:
    links = [await played.entered(f"Ann{'abcdefgh'[n]}") for n in range(8)]
    played.watch.close()
    for _, end in links:
        await end.say("\n\rBen shouts: good night\n\rfics% ")
        end.close()
    for tab, _ in links:
        assert await tab.part() == ["", "Ben shouts: good night", "fics% "]
        assert (await tab.closed())[0] == aiohttp.WSCloseCode.GOING_AWAY
    assert await asyncio.to_thread(played.go_between.rest) == 0
    assert played.go_between.out == ["ready", "closed"]


async def test_a_server_that_takes_no_link(played: Played) -> None:
    played.door.close()
    await played.door.wait_closed()
    assert await played.tabs.refused() == 502


async def test_signals(played: Played) -> None:
    tab, end = await played.entered()
    os.kill(played.go_between.id, signal.SIGTERM)
    assert (await tab.closed())[0] == aiohttp.WSCloseCode.GOING_AWAY
    assert await end.line() == b""
    assert await asyncio.to_thread(played.go_between.rest) == 0
    assert played.go_between.out == ["ready"]


def test_statuses() -> None:
    """What the program says to words that it doesn't take."""
    with socket.create_server(("127.0.0.1", 0)) as door:
        port = door.getsockname()[1]
        rows = (
            (["--help"], 0),
            ([], 2),
            (["--server", "x", "--listen", "1"], 2),
            (["--server", "localhost:5000", "--listen", "70000"], 2),
            (["--server", "localhost:5000", "--listen", "5003", "--web", "/nowhere"], 2),
            (["--server", "127.0.0.1:1", "--listen", str(free_port()), "--web", paths.TOP], 2),
            (["--server", "127.0.0.1:1", "--listen", str(free_port())], 1),
            (["--server", f"127.0.0.1:{port}", "--listen", str(port)], 1),
        )
        for words, status in rows:
            run = subprocess.run([paths.companion("fics_web"), *words], capture_output=True, timeout=PATIENCE)
            assert run.returncode == status, words


def test_a_server_at_an_address_of_ipv6() -> None:
    with socket.create_server(("::1", 0), family=socket.AF_INET6) as door:
        server = f"[::1]:{door.getsockname()[1]}"
        go_between = Run(paths.companion("fics_web"), "--server", server, "--listen", free_port(), "--web", paths.PAGE)
        go_between.begin()
        go_between.end()


def test_ctrl_c() -> None:
    with socket.create_server(("127.0.0.1", 0)) as door:
        go_between = GoBetween(door.getsockname()[1])
        os.kill(go_between.id, signal.SIGINT)
        assert (go_between.rest(), go_between.out) == (0, ["ready"])
