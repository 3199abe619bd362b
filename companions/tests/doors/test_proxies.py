"""The page behind nginx and Caddy."""

from collections.abc import Iterator
from pathlib import Path

import pytest

from tests.kit.go_between import GoBetween
from tests.kit.proxies import HOST, PROXIES, WORDS, proxy
from tests.kit.running import Server

from .conftest import try_page


@pytest.fixture
def page(server: Server) -> Iterator[GoBetween]:
    it = GoBetween(server.port, WORDS)
    yield it
    it.end()


@pytest.fixture(params=PROXIES)
def port(request: pytest.FixtureRequest, page: GoBetween, tmp_path: Path) -> Iterator[int]:
    """The port of a proxy before the page."""
    with proxy(request.param, tmp_path, page.port) as it:
        yield it


async def test_the_page_and_who_guesses(port: int, page: GoBetween) -> None:
    await try_page(f"https://{HOST}:{port}/", page.log)
