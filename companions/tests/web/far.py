"""A network between a browser and a go-between on which all takes long: a proxy for TCP that hands on each piece half a
round trip after it came, and that of a connection nothing before the round trip in which it is made."""

import asyncio
import threading
from asyncio import StreamReader, StreamWriter
from contextlib import suppress

PIECE = 65536


class Far:
    """The proxy before a port, with so many seconds for a round trip; a thread of its own runs it."""

    def __init__(self, port: int, seconds: float) -> None:
        self.to, self.half = port, seconds / 2
        self.connections = 0
        self.loop = asyncio.new_event_loop()
        self.thread = threading.Thread(target=self.loop.run_forever, daemon=True)
        self.thread.start()
        self.port = asyncio.run_coroutine_threadsafe(self.begin(), self.loop).result()

    def address(self, path: str = "/") -> str:
        return f"http://127.0.0.1:{self.port}{path}"

    async def begin(self) -> int:
        self.server = await asyncio.start_server(self.take, "127.0.0.1", 0)
        port: int = self.server.sockets[0].getsockname()[1]
        return port

    async def take(self, reader: StreamReader, writer: StreamWriter) -> None:
        self.connections += 1
        made = self.loop.time() + 2 * self.half
        there, back = await asyncio.open_connection("127.0.0.1", self.to)
        await asyncio.gather(self.carry(reader, back, made), self.carry(there, writer, made))

    async def carry(self, reader: StreamReader, writer: StreamWriter, made: float) -> None:
        """Carries what comes on one way."""
        with suppress(OSError):
            while piece := await reader.read(PIECE):
                self.loop.call_at(max(self.loop.time(), made) + self.half, writer.write, piece)
        self.loop.call_at(max(self.loop.time(), made) + self.half, writer.close)

    def end(self) -> None:
        asyncio.run_coroutine_threadsafe(self.close(), self.loop).result()
        self.loop.call_soon_threadsafe(self.loop.stop)
        self.thread.join()
        self.loop.close()

    async def close(self) -> None:
        """Closes the door, and cuts off whoever is connected."""
        self.server.close()
        carried = asyncio.all_tasks() - {asyncio.current_task()}
        for it in carried:
            it.cancel()
        await asyncio.gather(*carried, return_exceptions=True)
