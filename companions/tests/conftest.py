"""Which program and which browser is tried, and what every test may ask for."""

from collections.abc import Iterator
from pathlib import Path

import pytest

from tests.kit import paths
from tests.kit.running import Server


def pytest_addoption(parser: pytest.Parser) -> None:
    parser.addoption("--program", type=Path, default=paths.program, help="the server's program")
    parser.addoption("--browser", choices=("chromium", "firefox"), default="chromium", help="what shows the page")
    parser.addoption("--pictures", type=Path, help="the folder where pictures of the page are put")


def pytest_configure(config: pytest.Config) -> None:
    paths.program = config.getoption("--program").resolve()
    paths.browser = config.getoption("--browser")
    paths.pictures = config.getoption("--pictures")


@pytest.fixture
def server(tmp_path: Path) -> Iterator[Server]:
    """The server's program over an empty store."""
    it = Server(tmp_path / "club.db")
    yield it
    it.end()
