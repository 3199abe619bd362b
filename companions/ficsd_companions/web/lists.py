"""The three lists that are the same for everybody, asked for once for all tabs that want them."""

import asyncio
from functools import partial
from typing import TYPE_CHECKING

from .questions import LISTS, List

if TYPE_CHECKING:
    from .link import Link

EVERY_SECONDS = 2
AT_LEAST_SECONDS = 0.25  # between two questions, whoever has just come
A_TURN = 8  # tabs that are told in one turn of the loop


class Lists:
    """Asks by the link of one tab after another, and never by one that waits for an answer of its own."""

    def __init__(self) -> None:
        self.links: "list[Link]" = []  # of tabs with a seat, those that asked longest ago first
        self.rows: dict[str, list[str]] = {}
        self.wanted, self.answered = asyncio.Event(), asyncio.Event()

    def add(self, link: "Link") -> None:
        self.links.append(link)

    def remove(self, link: "Link") -> None:
        self.links.remove(link)

    def want(self) -> None:
        """A tab wants them that knows none."""
        self.wanted.set()

    async def run(self) -> None:
        """Asks and tells for ever."""
        while True:
            await asyncio.sleep(AT_LEAST_SECONDS)
            await within(EVERY_SECONDS - AT_LEAST_SECONDS, self.wanted)
            self.wanted.clear()
            if any(it.wants_lists for it in self.links):
                await self.ask()
                await self.tell()

    async def ask(self) -> None:
        asker = next((it for it in self.links if it.may_ask), None)
        if asker:
            self.links.remove(asker)
            self.links.append(asker)
            self.answered.clear()
            for name in LISTS:
                asker.server.ask(List(name, partial(self.take, name)))
            await within(EVERY_SECONDS, self.answered)

    def take(self, name: str, rows: list[str]) -> None:
        """Takes the rows of a list, which stay the same object where they are the same rows."""
        if self.rows.get(name) != rows:
            self.rows[name] = rows
        if name == LISTS[-1]:
            self.answered.set()

    async def tell(self) -> None:
        """Tells each tab that wants them what has changed since it was told last."""
        for n, link in enumerate(list(self.links), 1):
            try:
                await link.tell_lists(self.rows)
            except ConnectionError:
                pass  # it is about to be noticed where it is read
            if n % A_TURN == 0:
                await asyncio.sleep(0)


async def within(seconds: float, event: asyncio.Event) -> None:
    """Waits for an event, and no longer than that."""
    try:
        async with asyncio.timeout(seconds):
            await event.wait()
    except TimeoutError:
        pass
