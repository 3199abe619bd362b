"""The files of `companions/proxies`: through nginx and through Caddy the page comes by HTTP/2, and so does a link."""

import subprocess
from collections.abc import Iterator
from pathlib import Path

import pytest

from tests.kit.go_between import FROM_ONE, GoBetween
from tests.kit.proxies import HOST, PROXIES, WORDS, proxy, visitor

pytestmark = pytest.mark.words(*FROM_ONE, *WORDS)


@pytest.fixture(params=PROXIES)
def port(request: pytest.FixtureRequest, go_between: GoBetween, tmp_path: Path) -> Iterator[int]:
    """The port of a proxy before the go-between."""
    with proxy(request.param, tmp_path, go_between.port) as it:
        yield it


def fetched(port: int) -> subprocess.CompletedProcess[str]:
    place = "--resolve", f"{HOST}:{port}:127.0.0.1", f"https://{HOST}:{port}/"
    return subprocess.run(["curl", "-sSik", "--http2", *place], capture_output=True, text=True)


async def test_the_page_and_a_link(port: int) -> None:
    page = fetched(port)
    assert page.stdout.startswith("HTTP/2 200"), page
    assert "<title>Chess club</title>" in page.stdout
    async with visitor() as it:
        async with it.ws_connect(f"wss://{HOST}:{port}/link", origin=f"https://{HOST}:{port}") as link:
            assert "Free Internet Chess Server" in await link.receive_str()
