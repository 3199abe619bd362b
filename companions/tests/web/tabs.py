"""Tabs without a browser: WebSockets."""

import asyncio
from collections.abc import Callable, Iterable
from typing import Any, NoReturn

import aiohttp
import pytest
from ficslink.texts import PROMPTS

from tests.kit.go_between import GoBetween

PATIENCE = 60  # seconds


class Closed(Exception):
    """The WebSocket was closed; it says with which code and reason."""


class Tab:
    """One WebSocket, whose messages are told apart into answers and news. `heard` has all lines of both, in order,
    and `unread` those that `told` hasn't found."""

    def __init__(self, socket: aiohttp.ClientWebSocketResponse) -> None:
        self.socket = socket
        self.heard: list[str] = []
        self.unread: list[str] = []

    async def message(self) -> str:
        """The next message."""
        async with asyncio.timeout(PATIENCE):
            got = await self.socket.receive()
        if got.type != aiohttp.WSMsgType.TEXT:
            raise Closed(self.socket.close_code, got.extra)
        text: str = got.data
        return text

    async def closed(self) -> tuple[int, str]:
        """The code and the reason with which it is closed."""
        with pytest.raises(Closed) as why:
            await self.message()
        code, reason = why.value.args
        return code, reason

    async def part(self) -> list[str]:
        """The messages up to a prompt, and with it."""
        messages = [await self.message()]
        while messages[-1] not in PROMPTS:
            messages.append(await self.message())
        lines = [it for it in messages[:-1] if it]
        self.heard += lines
        self.unread += lines
        return messages

    async def reads(self) -> NoReturn:
        """Takes what comes, for ever."""
        while True:
            await self.part()

    async def send(self, line: str) -> None:
        await self.socket.send_str(line)

    async def answer(self) -> list[str]:
        """The next part that isn't news."""
        while (part := await self.part())[0] == "":
            pass
        return part

    async def ask(self, line: str) -> list[str]:
        """Sends a line; its answer without the prompt."""
        await self.send(line)
        return (await self.answer())[:-1]

    async def told(self, fits: Callable[[str], bool]) -> str:
        """The first line that fits and wasn't found before."""
        while (found := next((it for it in self.unread if fits(it)), None)) is None:
            await self.part()
        self.unread.remove(found)
        return found

    async def enter(self, name: str) -> None:
        """Goes in under a name."""
        await self.answer()
        answer = await self.ask(name)
        assert answer[0] == f"Entered as {name}."

    async def close(self) -> None:
        await self.socket.close()

    def cut(self) -> None:
        """Cuts the link without a word, as a machine does that is switched off."""
        if self.transport:
            self.transport.abort()
        self.socket._response.close()

    @property
    def transport(self) -> asyncio.Transport | None:
        connection = self.socket._response.connection
        return connection.transport if connection else None  # type: ignore[return-value]  # aiohttp says less of it


class Tabs:
    """Tabs of one go-between, all closed at the end."""

    def __init__(self, go_between: GoBetween) -> None:
        self.go_between = go_between
        self.opened: list[Tab] = []  # a socket that nobody holds is closed
        self.session = aiohttp.ClientSession(connector=aiohttp.TCPConnector(limit=0))

    async def open(self, **words: Any) -> Tab:
        address = self.go_between.address("/link")
        self.opened.append(Tab(await self.session.ws_connect(address, max_msg_size=0, **words)))
        return self.opened[-1]

    async def refused(self, **words: Any) -> int:
        """The status with which a tab isn't let in."""
        with pytest.raises(aiohttp.WSServerHandshakeError) as why:
            await self.open(**words)
        return why.value.status

    async def open_all(self, names: Iterable[str]) -> list[Tab]:
        """Tabs that are in, under these names."""
        names = list(names)
        tabs = await asyncio.gather(*(self.open() for _ in names))
        await asyncio.gather(*(tab.enter(name) for tab, name in zip(tabs, names)))
        return tabs

    async def close(self) -> None:
        for tab in self.opened:
            tab.cut()
        await self.session.close()
