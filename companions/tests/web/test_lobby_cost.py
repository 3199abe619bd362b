"""What the lists of a lobby cost: asked for by each tab every few seconds, and told where they have changed."""

import asyncio
import json
from collections.abc import AsyncIterator, Coroutine, Iterable
from contextlib import asynccontextmanager

import pytest

from tests.kit.go_between import GoBetween
from tests.kit.running import Server, async_wait_until

from .evenings import name
from .played import MARK
from .tabs import Tab, Tabs

pytestmark = [pytest.mark.slow, pytest.mark.usefixtures("goes_first")]

TABS = 250
SECONDS = 12
EVERY_SECONDS = 4
LISTS = ("who", "sought", "games", "pending", "stored")
AT_MOST = 1 / 4  # of the processor time that the go-between takes where each tab asks


class SeatedTab(Tab):
    """A tab with a seat, whose lists are put aside as they come."""

    def __init__(self, tab: Tab) -> None:
        super().__init__(tab.socket)
        self.lists: dict[str, list[str]] = {}

    async def message(self) -> str:
        while (text := await super().message()).startswith(MARK):
            self.lists.update(json.loads(text[1:]))
        return text

    async def wants_lists(self, wants: bool) -> None:
        await self.send(MARK + json.dumps({"lists": wants}))

    async def asks(self, n: int) -> None:
        """Asks for its lists for ever, as the n-th tab."""
        await asyncio.sleep(EVERY_SECONDS * n / TABS)
        while True:
            for line in LISTS:
                await self.ask(line)
            await asyncio.sleep(EVERY_SECONDS)


async def seated(tabs: Tabs, names: list[str]) -> list[SeatedTab]:
    """Tabs with seats that are in, under these names."""
    opened = [SeatedTab(it) for it in await asyncio.gather(*(tabs.open(protocols=("seat",)) for _ in names))]
    for it in opened:
        await it.send(MARK + '{"seat": null}')
    await asyncio.gather(*(tab.enter(name) for tab, name in zip(opened, names)))
    return opened


@asynccontextmanager
async def meanwhile(work: Iterable[Coroutine[None, None, None]]) -> AsyncIterator[None]:
    """Work that goes on for so long."""
    tasks = [asyncio.create_task(it) for it in work]
    try:
        yield
    finally:
        for it in tasks:
            it.cancel()
        await asyncio.gather(*tasks, return_exceptions=True)


async def cost(go_between: GoBetween, server: Server, what: str) -> float:
    """The processor time that the go-between takes, in seconds a second."""
    before = [it.seconds() for it in (go_between, server)]
    await asyncio.sleep(SECONDS)
    shares = [(it.seconds() - b) / SECONDS for it, b in zip((go_between, server), before)]
    print(
        f"\n{TABS} tabs in the lobby, {what}: {100 * shares[0]:.1f} % of a processor in the go-between, "
        f"{100 * shares[1]:.1f} % in the server",
        flush=True,
    )
    return shares[0]


async def test_told_and_asked(server: Server, go_between: GoBetween, tabs: Tabs) -> None:
    names = [name("Tab", n) for n in range(TABS)]
    opened = await seated(tabs, names)

    def know_all() -> bool:
        return all(sorted(it.lists.get("who", [])) == sorted(names) and it.lists.get("games") == [] for it in opened)

    async with meanwhile(it.reads() for it in opened):
        for it in opened:
            await it.wants_lists(True)
        assert await async_wait_until(know_all)
        told = await cost(go_between, server, "their lists told")
        assert know_all()
        for it in opened:
            await it.wants_lists(False)
    async with meanwhile(it.asks(n) for n, it in enumerate(opened)):
        await asyncio.sleep(EVERY_SECONDS)  # until each has begun
        asked = await cost(go_between, server, "their lists asked for")
    assert told < AT_MOST * asked
