"""Nothing heaps up, however many tabs send what nobody waits for, or take nothing of what is due to them."""

import asyncio
import os
import time
from collections.abc import Callable
from pathlib import Path

import pytest

from .answering import Answers, harming, serving, take
from .played import Played

pytestmark = pytest.mark.slow  # half a minute each

TABS, MOST = 256, 300 * 2**20
SECONDS = 20
GONE_WITHIN = 60  # seconds, of a tab that takes nothing


class Talker(Answers):
    """The server's end of a link that says more than anybody reads, as far as it is read."""

    TEXT = b"".join(b"\n\rBen told you: %d %s\n\rfics%% " % (n, b"x" * 400) for n in range(64))

    def __init__(self) -> None:
        self.is_paused = False
        self.lost = asyncio.Event()

    def connection_made(self, transport: asyncio.BaseTransport) -> None:
        super().connection_made(transport)
        self.transport.set_write_buffer_limits(high=len(self.TEXT))
        self.talk()

    def connection_lost(self, exc: Exception | None) -> None:
        self.lost.set()

    def talk(self) -> None:
        while not self.is_paused and not self.transport.is_closing():
            self.transport.write(self.TEXT)

    def pause_writing(self) -> None:
        self.is_paused = True

    def resume_writing(self) -> None:
        self.is_paused = False
        self.talk()


async def most_beside(played: Played, kind: str, taker: Callable[[], Answers]) -> int:
    """The most memory that the go-between holds in all, beside so many hostile tabs."""
    most = 0
    async with serving(played, taker):
        run, written = await harming(played, kind, TABS, SECONDS)
        while not written.at_eof():
            most = max(most, played.memory())
            try:
                await asyncio.wait_for(written.readline(), 0.2)
            except asyncio.TimeoutError:
                pass
        await run.wait()
    print(f"\n{TABS} of {kind}: at most {most / 2**20:.0f} MiB", flush=True)
    return most


async def check(played: Played, kind: str, taker: Callable[[], Answers] = Answers) -> None:
    assert await most_beside(played, kind, taker) < MOST


async def test_pings_toward_tabs_that_dont_read(played: Played) -> None:
    await check(played, "unread-pings")


async def test_lines_of_tabs_that_dont_read(played: Played) -> None:
    await check(played, "unread-lines")


async def test_long_lines_of_tabs_that_dont_read(played: Played) -> None:
    await check(played, "unread-long-lines")


async def test_requests_ahead_of_their_answers(played: Played) -> None:
    """No tabs: connections that ask for the page again and again, and don't wait for it."""
    await check(played, "requests-again")


async def test_requests_whose_answers_arent_read(played: Played) -> None:
    await check(played, "unread-requests-again")


async def test_a_server_that_says_more_than_tabs_read(played: Played) -> None:
    await check(played, "unread-silence", Talker)


async def test_a_tab_that_takes_nothing_keeps_no_place(played: Played) -> None:
    """It is cut off though much is due to it, and its player leaves."""
    tab, end = await played.entered()
    assert tab.transport
    tab.transport.pause_reading()
    begin = time.monotonic()
    talker = Talker()
    take(end.writer.transport, b"", lambda: talker)
    await asyncio.wait_for(talker.lost.wait(), GONE_WITHIN)
    print(f"\ncut off after {time.monotonic() - begin:.0f} s", flush=True)
    # the go-between's own link alone is left, and no socket of the tab
    files = Path(f"/proc/{played.go_between.id}/fd").iterdir()
    assert len([it for it in map(os.readlink, files) if it.startswith("socket:")]) <= 5
