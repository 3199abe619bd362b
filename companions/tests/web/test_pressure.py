"""No side is read faster than the other takes it, and nothing is dropped by that."""

import asyncio
import socket
from collections.abc import Awaitable, Callable, Iterable

from .played import Played

LINES = 40000
AHEAD, PACE_SECONDS = 180, 0.025
LINE = "Ben told you: {} " + "x" * 400
MOST_UNDERWAY = 12 * 2**20  # bytes: what the system's sockets and the go-between may hold together


async def written(write: Callable[[str], Awaitable[None]], lines: Iterable[str]) -> tuple[asyncio.Task[None], int]:
    """Begins to write lines to who doesn't read, and how many bytes were taken once none is taken any more."""
    count = 0

    async def all_of_them() -> None:
        nonlocal count
        for line in lines:
            await write(line)
            count += len(line)

    task = asyncio.create_task(all_of_them())
    before = -1
    while before != count:
        before = count
        await asyncio.sleep(1)  # by which it counts as held up: nothing tells that it is
    return task, count


async def test_a_tab_that_doesnt_read(played: Played) -> None:
    tab, end = await played.entered()
    assert tab.transport
    tab.transport.pause_reading()
    before = played.memory()
    task, count = await written(end.say, [LINE.format(n) + "\n\r" for n in range(LINES)])
    assert not task.done()
    assert count < MOST_UNDERWAY
    assert played.memory() - before < 4 * 2**20
    tab.transport.resume_reading()
    for n in range(LINES):
        assert await tab.message() == LINE.format(n)
    await task


async def test_a_server_that_doesnt_read(played: Played) -> None:
    """As many lines as a tab may send ahead: some wait in the tab's socket, which isn't read meanwhile."""
    played.door.sockets[0].setsockopt(socket.SOL_SOCKET, socket.SO_RCVBUF, 4096)
    tab, end = await played.entered()
    link = end.writer.transport
    assert tab.transport and isinstance(link, asyncio.Transport)
    link.pause_reading()
    before = played.memory()
    for n in range(AHEAD):
        await tab.send(LINE.format(n))
        await asyncio.sleep(PACE_SECONDS)  # faster would be a flood
    assert played.unread(played.go_between.port, tab.transport.get_extra_info("sockname")[1]) > 4096
    assert played.memory() - before < 2**20
    link.resume_reading()
    for n in range(AHEAD):
        assert await end.line() == LINE.format(n).encode() + b"\n"


async def test_others_go_on_meanwhile(played: Played) -> None:
    stuck, end = await played.entered()
    assert stuck.transport
    stuck.transport.pause_reading()
    task, _ = await written(end.say, [LINE.format(n) + "\n\r" for n in range(LINES)])
    tab, other = await played.entered("Cat")
    await tab.send("who")
    assert await other.line() == b"who\n"
    await other.say("Cat\n\rfics% ")
    assert await tab.part() == ["Cat", "fics% "]
    task.cancel()
    await asyncio.gather(task, return_exceptions=True)
