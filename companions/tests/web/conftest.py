"""The browser, the programs that a scenario needs, and a server that a test plays.

The mark `words` has the words of a test's go-between besides its ports. A module overrides `words` where they name a
folder, and `page` where the page is another one."""

from collections.abc import AsyncIterator, Iterator
from pathlib import Path
from typing import TYPE_CHECKING

import pytest

from tests.kit import paths
from tests.kit.go_between import FROM_ONE, GoBetween
from tests.kit.running import Server

from .played import Played, playing
from .priority import first
from .tabs import Tabs
from .wire import Wire

if TYPE_CHECKING:
    from .browser import Browser, Evening


def pytest_configure(config: pytest.Config) -> None:
    config.addinivalue_line("markers", "words(*WORDS): those of the go-between besides its ports")


@pytest.fixture
def goes_first() -> Iterator[None]:
    """What is timed goes before other work of the machine."""
    with first():
        yield


@pytest.fixture
def words(request: pytest.FixtureRequest) -> tuple[object, ...]:
    mark = request.node.get_closest_marker("words")
    return mark.args if mark else FROM_ONE


@pytest.fixture
def page() -> Path:
    return paths.PAGE


@pytest.fixture
def server() -> Iterator[Server]:
    """The server's program without a store."""
    it = Server()
    yield it
    it.end()


@pytest.fixture
def go_between(server: Server, words: tuple[object, ...], page: Path) -> Iterator[GoBetween]:
    it = GoBetween(server.port, words, page)
    yield it
    it.end()


@pytest.fixture
def wire(go_between: GoBetween) -> Iterator[Wire]:
    """A wire to the go-between, which a test can cut."""
    it = Wire(go_between.port)
    yield it
    it.close()


@pytest.fixture
async def tabs(go_between: GoBetween) -> AsyncIterator[Tabs]:
    """Tabs without a browser."""
    it = Tabs(go_between)
    yield it
    await it.close()


@pytest.fixture
async def played(words: tuple[object, ...], tmp_path: Path) -> AsyncIterator[Played]:
    """A go-between before a server that the test plays."""
    async with playing(tmp_path, words) as it:
        yield it


@pytest.fixture
def pictures(tmp_path: Path) -> Path:
    """Where pictures of the page are put."""
    if not paths.pictures:
        return tmp_path
    paths.pictures.mkdir(parents=True, exist_ok=True)
    return paths.pictures


@pytest.fixture(scope="session")
def browser() -> "Iterator[Browser]":
    """The browser of all scenarios."""
    from .browser import WIDE, started  # wants python3-selenium, which the other tests don't

    it = started(WIDE)
    yield it
    it.end()


@pytest.fixture
def evening(
    request: pytest.FixtureRequest, browser: "Browser", server: Server, go_between: GoBetween, page: Path
) -> "Iterator[Evening]":
    """A server that plays, a go-between before it, and windows with the page."""
    from .browser import Evening

    if request.node.get_closest_marker("firefox") and paths.browser != "firefox":
        pytest.skip("is tried in Firefox alone")
    it = Evening(browser, server, go_between)
    yield it
    it.end()
