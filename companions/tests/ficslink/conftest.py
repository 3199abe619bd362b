"""A server that a test plays, over which links and members are opened; and the real one, with members at it."""

import asyncio
from collections.abc import AsyncIterator, Callable, Coroutine, Iterator
from typing import Any, TypeVar

import pytest

from ficslink import Event
from ficslink.link import Link
from ficslink.member import Member
from tests.ficslink.engines import Engine
from tests.kit.played import Door, End
from tests.kit.running import PATIENCE, Server

Item = TypeVar("Item")
Come = TypeVar("Come", Link, Member)
Kind = TypeVar("Kind", bound=Event)
Begin = Callable[..., Engine]


async def some(stream: AsyncIterator[Item], count: int) -> list[Item]:
    """So many items of a stream."""
    items = []
    async for it in stream:
        items.append(it)
        if len(items) == count:
            break
    return items


async def until(member: Member, kind: type[Kind], *others: type[Kind]) -> Kind:
    """The next event that is of one of these classes."""
    async with asyncio.timeout(PATIENCE):
        async for event in member.events():
            if isinstance(event, (kind, *others)):
                return event
    raise AssertionError("no such event")


class Played(Door):
    """A server that a test plays, and what is at it."""

    def __init__(self) -> None:
        super().__init__()
        self.come: list[Link | Member] = []

    async def opening(self, coming: Coroutine[Any, Any, Come], *says: tuple[str, str]) -> tuple[Come, End]:
        """What comes of an entrance, while the server opens and says these to its lines; and the server's end."""
        task = asyncio.create_task(coming)
        end = await self.opened()
        for line, text in says:
            assert await end.line() == line
            await end.say(text)
        it = await task
        self.come.append(it)
        return it, end

    async def linked(self, name: str = "Ann", **words: Any) -> tuple[Link, End]:
        """A link that is in, and the server's end."""
        link, end = await self.opening(Link.open("127.0.0.1", self.port, **words))
        asked = asyncio.create_task(link.ask(name))
        await end.line()
        await end.say(f"Entered as {name}.\n\rfics% ")
        await asked
        return link, end

    async def member(self, name: str = "Ann", *says: tuple[str, str], **words: Any) -> tuple[Member, End]:
        """A member, and the server's end."""
        coming = Member.enter("127.0.0.1", self.port, name, **words)
        return await self.opening(coming, (name, f"Entered as {name}.\n\rfics% "), *says)


async def cut(member: Member) -> None:
    """Ends a member whose server says no good-bye."""
    member._has_left = True
    if member._link:
        await member._link.close()
    if member._keeping:
        member._keeping.cancel()


@pytest.fixture
async def played() -> AsyncIterator[Played]:
    it = Played()
    await it.open()
    yield it
    for one in it.come:
        await (one.close() if isinstance(one, Link) else cut(one))
    it.close()


class Evening:
    """A server over a store, with members at it."""

    def __init__(self, server: Server) -> None:
        self.server = server
        self.members: list[Member] = []

    async def enter(self, *names: str, stamped: bool = False) -> list[Member]:
        """Members who are in."""
        for name in names:
            self.members.append(await Member.enter("127.0.0.1", self.server.port, name, stamped=stamped))
        return self.members[-len(names) :]


@pytest.fixture
async def evening(server: Server) -> AsyncIterator[Evening]:
    it = Evening(server)
    yield it
    it.server.end()
    for member in it.members:
        await member.leave()


@pytest.fixture
def engines() -> Iterator[Begin]:
    """Begins an engine by its name, with options."""
    begun: list[Engine] = []

    def begin(name: str, **options: str) -> Engine:
        begun.append(Engine(name, **options))
        return begun[-1]

    yield begin
    for engine in begun:
        engine.end()
