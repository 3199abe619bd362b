"""A server with one account, before which the examples stand."""

import socket
from collections.abc import Iterator

import aiohttp
import pytest

from tests.kit import paths
from tests.kit.link import Link
from tests.kit.ports import free_port
from tests.kit.proxies import visitor
from tests.kit.running import Run, Server, async_wait_until, wait_until

VISITOR = "127.0.0.5"  # an address of this machine that isn't the proxy's


@pytest.fixture
def server() -> Iterator[Server]:
    """The server's program without a store, where Ann has registered."""
    it = Server()
    link = Link(it.port)
    link.say("Ann", "register tuna", "quit")
    link.until("^Goodbye")
    link.link.close()
    yield it
    it.end()


class Face(Run):
    """The go-between for telnets; `port` is where it listens."""

    def __init__(self, server: Server) -> None:
        self.port = free_port()
        words = "--server", server.address, "--listen", self.port, "--links-from-one", 256
        super().__init__(paths.companion("fics_face"), *words)
        self.begin()


@pytest.fixture
def face(server: Server) -> Iterator[Face]:
    it = Face(server)
    yield it
    it.end()


def is_listening(port: int) -> bool:
    try:
        with socket.create_connection(("127.0.0.1", port), timeout=1):
            return True
    except OSError:
        return False


def begun(run: Run, port: int) -> Run:
    """A program that listens."""
    assert wait_until(lambda: is_listening(port), unless=run.has_told_all), run.log
    return run


async def part(tab: aiohttp.ClientWebSocketResponse) -> list[str]:
    """The messages up to a prompt, and with it."""
    said = [await tab.receive_str(timeout=60)]
    while said[-1] not in ("login: ", "password: ", "fics% "):
        said.append(await tab.receive_str(timeout=60))
    return said


async def try_page(address: str, log: list[str]) -> None:
    """The page and a link through a proxy; a wrong password is logged with the visitor's address, and not the proxy's,
    whatever the visitor says of that."""
    async with visitor(VISITOR) as it:
        async with it.get(address) as page:
            assert page.status == 200 and "<html" in await page.text()
        said = {"X-Forwarded-For": "192.0.2.1", "Origin": address.rstrip("/")}
        async with it.ws_connect(f"{address}link", headers=said) as tab:
            assert (await part(tab))[-1] == "login: "
            await tab.send_str("Ann")
            assert (await part(tab))[-1] == "password: "
            await tab.send_str("wrong")
            assert "refused 23 WrongPassword" in await part(tab)
            await tab.send_str("guest")
            assert any("Entered as Guest" in line for line in await part(tab))
    wanted = [f"fics_web: wrong password from {VISITOR}"]
    assert await async_wait_until(lambda: log == wanted), log
