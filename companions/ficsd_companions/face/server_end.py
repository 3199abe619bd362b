"""The server's end of one client's link."""

import asyncio
from collections.abc import AsyncIterator

PIECE = 16384


class ServerEnd:
    """A link to the server, which tells when something has come by it."""

    def __init__(self, reader: asyncio.StreamReader, writer: asyncio.StreamWriter) -> None:
        self.reader, self.writer = reader, writer
        self.has_come = asyncio.Event()
        self.is_over = False

    def say(self, text: str) -> None:
        if not self.writer.is_closing():
            self.writer.write(text.encode("latin-1", "replace"))

    def say_no_more(self) -> None:
        if not self.writer.is_closing():
            self.writer.write_eof()

    async def pieces(self) -> AsyncIterator[bytes]:
        """What the server writes."""
        try:
            while piece := await self.reader.read(PIECE):
                yield piece
                self.has_come.set()
        finally:
            self.is_over = True
            self.has_come.set()

    async def taken(self) -> None:
        """Waits until the server has taken enough of what was said."""
        await self.writer.drain()

    async def progress(self) -> None:
        """Waits until the server has written something that is dealt with, or has closed."""
        if not self.is_over:
            self.has_come.clear()
            await self.has_come.wait()
