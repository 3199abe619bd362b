"""A server that a test plays: each line of it was written down by hand from the server's pages."""

import asyncio
from contextlib import suppress

PATIENCE = 60.0  # seconds
OPENING = "Free Internet Chess Server profile\n\rlogin: "


class End:
    """The server's end of a link."""

    def __init__(self, reader: asyncio.StreamReader, writer: asyncio.StreamWriter) -> None:
        self.reader, self.writer = reader, writer

    async def line(self) -> str:
        """The next line, without its end; an empty one may be the end of the link."""
        return (await asyncio.wait_for(self.reader.readline(), PATIENCE)).decode("latin-1").rstrip("\n")

    async def typed(self) -> str:
        """The next line; `EOFError` at the end of the link."""
        line = await self.line()
        if not line and self.reader.at_eof():
            raise EOFError("the link is closed")
        return line

    async def is_silent(self, seconds: float) -> bool:
        """Whether nothing comes for so long."""
        try:
            return not await asyncio.wait_for(self.reader.read(1), seconds)
        except asyncio.TimeoutError:
            return True

    async def say(self, text: str | bytes) -> None:
        self.writer.write(text if isinstance(text, bytes) else text.encode("latin-1"))
        await self.writer.drain()

    async def answer(self, line: str, text: str = "") -> None:
        """Waits for a line, and answers it."""
        got = await self.typed()
        if got != line:
            raise AssertionError(f"{got!r} comes, and not {line!r}")
        await self.say(text + "fics% ")

    def close(self) -> None:
        self.writer.close()


class Door:
    """Where links come to a server that a test plays."""

    def __init__(self) -> None:
        self.ends: asyncio.Queue[End] = asyncio.Queue()

    async def open(self) -> None:
        def came(reader: asyncio.StreamReader, writer: asyncio.StreamWriter) -> None:
            self.ends.put_nowait(End(reader, writer))

        self.server = await asyncio.start_server(came, "127.0.0.1", 0, backlog=300)
        self.port: int = self.server.sockets[0].getsockname()[1]

    async def end(self) -> End:
        """The end of the next link."""
        return await asyncio.wait_for(self.ends.get(), PATIENCE)

    async def opened(self) -> End:
        """The same, once the server has said its opening."""
        end = await self.end()
        await end.say(OPENING)
        return end

    async def serve(self, *pieces: str) -> None:
        """Says a piece for each line that the next link sends, and closes it behind the last one."""
        end = await self.opened()
        with suppress(EOFError, ConnectionError):
            for piece in pieces:
                await end.typed()
                await end.say(piece)
        end.close()

    def close(self) -> None:
        self.server.close()
