"""A go-between before a server that the test plays: each line of it was written down by hand from the server's
pages."""

import asyncio
import contextlib
import json
import os
from collections.abc import AsyncIterator
from dataclasses import dataclass
from pathlib import Path
from typing import Any

from tests.kit.go_between import GoBetween

from .tabs import PATIENCE, Tab, Tabs

OPENING = b"Free Internet Chess Server profile\n\rlogin: "
MARK = "\x01"  # before what the go-between and a tab with a seat tell each other


class End:
    """The server's end of a link."""

    def __init__(self, reader: asyncio.StreamReader, writer: asyncio.StreamWriter) -> None:
        self.reader, self.writer = reader, writer

    async def line(self, seconds: float = PATIENCE) -> bytes:
        """The next line, with its end; an empty one where the go-between has closed."""
        return await asyncio.wait_for(self.reader.readline(), seconds)

    async def is_silent(self, seconds: float) -> bool:
        """Whether nothing comes for so long."""
        try:
            return not await asyncio.wait_for(self.reader.read(1), seconds)
        except asyncio.TimeoutError:
            return True

    async def say(self, text: str | bytes) -> None:
        self.writer.write(text if isinstance(text, bytes) else text.encode("latin-1"))
        await self.writer.drain()

    def close(self) -> None:
        self.writer.close()


def fields_of(message: str) -> dict[str, Any]:
    """What the go-between tells a tab with a seat."""
    assert message[:1] == MARK
    fields: dict[str, Any] = json.loads(message[1:])
    return fields


@dataclass
class Played:
    """A server's door and the links that come by it, and the tabs of the go-between before it."""

    door: asyncio.Server
    ends: asyncio.Queue[End]
    page: Path
    go_between: GoBetween
    tabs: Tabs
    watch: End  # the go-between's own link

    def memory(self) -> int:
        """What the go-between holds, in bytes."""
        pages = Path(f"/proc/{self.go_between.id}/statm").read_text(encoding="utf-8").split()[1]
        return int(pages) * os.sysconf("SC_PAGE_SIZE")

    @staticmethod
    def unread(here: int, there: int) -> int:
        """How many bytes wait in the socket of a port that is linked with another one."""
        for line in Path("/proc/net/tcp").read_text(encoding="utf-8").splitlines()[1:]:
            *ends, _, queues = line.split()[1:5]
            if [here, there] == [int(it.rpartition(":")[2], 16) for it in ends]:
                return int(queues.rpartition(":")[2], 16)
        raise AssertionError("no such link")

    async def end(self) -> End:
        """The next link that comes."""
        return await asyncio.wait_for(self.ends.get(), PATIENCE)

    async def link(self, **words: Any) -> tuple[Tab, End]:
        """A tab, and its link at the server, before the login."""
        tab = await self.tabs.open(**words)
        return tab, await self.opened(tab)

    async def opened(self, tab: Tab) -> End:
        """The link of a tab that has just come, once the tab was told the opening."""
        end = await self.end()
        await end.say(OPENING)
        assert await tab.part() == ["Free Internet Chess Server profile", "login: "]
        return end

    @staticmethod
    async def goes_in(tab: Tab, end: End, name: str) -> None:
        await tab.send(name)
        assert await end.line() == name.encode() + b"\n"
        await end.say(f"Entered as {name}.\n\rfics% ")
        assert await tab.part() == [f"Entered as {name}.", "fics% "]

    async def entered(self, name: str = "Ann") -> tuple[Tab, End]:
        """A tab that is in, and its link at the server."""
        tab, end = await self.link()
        await self.goes_in(tab, end, name)
        return tab, end

    async def seat(self, token: str | None = None, **fields: object) -> tuple[Tab, dict[str, Any]]:
        """A tab that has asked for a seat, and what it was answered."""
        tab = await self.wish(token, **fields)
        return tab, fields_of(await tab.message())

    async def wish(self, token: str | None = None, **fields: object) -> Tab:
        """A tab that has asked for a seat."""
        tab = await self.tabs.open(protocols=("seat",))
        await tab.send(MARK + json.dumps({"seat": token, **fields}))
        return tab

    async def seated(self, name: str = "Ann") -> tuple[Tab, End, str]:
        """A tab that is in, its link at the server, and its token."""
        tab, answer = await self.seat()
        assert (answer["taken"], answer["heard"], answer["name"]) == ("new", 0, None)
        end = await self.opened(tab)
        await self.goes_in(tab, end, name)
        return tab, end, answer["seat"]


@contextlib.asynccontextmanager
async def playing(folder: Path, words: tuple[object, ...]) -> AsyncIterator[Played]:
    """A server to be played, and a go-between with these words, and a page in that folder, before it."""
    ends: asyncio.Queue[End] = asyncio.Queue()
    door = await asyncio.start_server(lambda *it: ends.put_nowait(End(*it)), "127.0.0.1", 0, backlog=300)
    page = folder / "page"
    page.mkdir()
    page.joinpath("index.html").write_text("<title>A page</title>")
    port = door.sockets[0].getsockname()[1]
    go_between = await asyncio.to_thread(GoBetween, port, words, page)
    tabs = Tabs(go_between)
    try:
        yield Played(door, ends, page, go_between, tabs, await asyncio.wait_for(ends.get(), PATIENCE))
    finally:
        await tabs.close()
        door.close()
        go_between.end()
