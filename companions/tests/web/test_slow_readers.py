"""Who takes little of what is due to it holds nobody up: with fewer bytes unsent than the lists stop at, a write to its
socket never waits, so that telling one tab its lists can't keep others from theirs."""

import asyncio
import socket

from ficsd_companions.web.gate import Gate
from ficsd_companions.web.link import MOST_UNSENT

from tests.kit.running import async_wait_until

MUCH, PIECE = 2**20, 2048


class Porter:
    """Lets everybody in and out."""

    def lets_in(self, gate: Gate) -> bool:
        return True

    def lets_out(self, gate: Gate) -> None:
        pass

    has_tab = lets_out


class Writer(asyncio.Protocol):
    """Who writes to a socket, and may have to wait."""

    waits = False

    def pause_writing(self) -> None:
        self.waits = True

    def resume_writing(self) -> None:
        self.waits = False


async def test_nobody_waits_with_little_unsent() -> None:
    loop = asyncio.get_running_loop()
    writer = Writer()
    it = Gate(Porter(), lambda: writer)
    door = await loop.create_server(lambda: it, "127.0.0.1", 0)
    with socket.socket() as reader:
        reader.setsockopt(socket.SOL_SOCKET, socket.SO_RCVBUF, PIECE)
        reader.setblocking(False)
        await loop.sock_connect(reader, door.sockets[0].getsockname())
        assert await async_wait_until(lambda: it.is_in)
        it.socket.setsockopt(socket.SOL_SOCKET, socket.SO_SNDBUF, PIECE)
        it.transport.write(b"x" * MUCH)
        assert writer.waits
        seen: list[int] = []
        while writer.waits:
            seen.append(it.unsent)
            await loop.sock_recv(reader, PIECE)
            await asyncio.sleep(0)  # a turn of the loop
        assert min(seen) >= MOST_UNSENT
        assert len(seen) > 100
        it.abort()
    door.close()
