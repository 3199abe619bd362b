"""Where every place is taken, or the server isn't there: a tab with a seat is told by the close of its WebSocket."""

import asyncio

from .played import Played


async def test_a_tab_with_a_seat_is_told(played: Played) -> None:
    await asyncio.gather(*(played.tabs.open() for _ in range(256)))
    assert await (await played.wish()).closed() == (4001, "the club is full")


async def test_a_server_that_isnt_there(played: Played) -> None:
    played.door.close()
    assert await (await played.wish()).closed() == (4004, "the server can't be reached")
