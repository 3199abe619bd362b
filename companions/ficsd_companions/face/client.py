"""One client: what it may send and how fast, and when it is cut off."""

import asyncio
import re
import socket
from collections.abc import AsyncIterator

from ficsd_companions.limits.pace import Flood, Pace
from ficsd_companions.limits.pieces import PIECE
from ficsd_companions.limits.refused import Why

from . import texts
from .wire import IAC

LONGEST_METHOD = 8
OPTIONS_SECONDS = 0.02  # between two pieces that have telnet's own bytes, which cost more than others
# what a browser sends first, whoever's page has it do so
REQUEST = re.compile(rb"(?:GET|HEAD|POST|PUT|DELETE|OPTIONS|PATCH|CONNECT|TRACE|PRI) ")
UNSENT = 65536  # bytes that wait for the client before the server isn't read
TAKING_SECONDS = 30  # for a client to take something of what is due to it
READING_SECONDS = 1  # for what was said last
KEEPALIVE = ((socket.SO_KEEPALIVE, 1),)
KEEPALIVE_TIMES = ((socket.TCP_KEEPIDLE, 60), (socket.TCP_KEEPINTVL, 15), (socket.TCP_KEEPCNT, 4))


class Cut(Exception):
    """The client is cut off; the text is what it is told, perhaps nothing, and `why` is set where it is refused."""

    def __init__(self, text: str, why: Why | None = None) -> None:
        super().__init__(text)
        self.why = why


class Client:
    """The client's end of a link."""

    def __init__(self, reader: asyncio.StreamReader, writer: asyncio.StreamWriter) -> None:
        self.reader, self.writer = reader, writer
        link = writer.get_extra_info("socket")
        # a telnet may send the last byte of a command of its own as urgent data (RFC 854, the SYNCH)
        link.setsockopt(socket.SOL_SOCKET, socket.SO_OOBINLINE, 1)
        link.setsockopt(socket.SOL_SOCKET, socket.SO_SNDBUF, UNSENT)
        for level, options in ((socket.SOL_SOCKET, KEEPALIVE), (socket.IPPROTO_TCP, KEEPALIVE_TIMES)):
            for option in options:
                link.setsockopt(level, *option)
        writer.transport.set_write_buffer_limits(high=UNSENT)
        self.pace = Pace(link)
        self.first = b""  # what it sent first

    @property
    def address(self) -> str:
        address: str = self.writer.get_extra_info("peername")[0]
        return address

    def say(self, text: str) -> None:
        if not self.writer.is_closing():
            self.writer.write(text.encode("latin-1", "replace"))

    def say_lines(self, text: str) -> None:
        """Says whole lines, each with the end that telnets want."""
        self.say(text.replace("\n", "\n\r"))

    async def pieces(self) -> AsyncIterator[bytes]:
        """What it sends, a line or less at a time, and no faster than it may. `Cut` comes where it has to go."""
        try:
            while piece := await self.reader.read(PIECE):
                self.look(piece)
                self.pace.piece(len(piece))
                if IAC in piece:
                    self.pace.telnets_own(len(piece))
                    await asyncio.sleep(OPTIONS_SECONDS)
                for line in lines(piece):
                    if line.endswith(b"\n"):
                        await self.pace.line()
                    yield line
                await asyncio.sleep(0)
        except Flood as flood:
            raise Cut(texts.CUT.format(flood), Why.FLOOD) from None

    def look(self, piece: bytes) -> None:
        """Cuts a browser off before anything of it is a line."""
        if len(self.first) <= LONGEST_METHOD:
            self.first += piece[: LONGEST_METHOD + 1]
            if REQUEST.match(self.first):
                raise Cut("", Why.BROWSER)

    async def taken(self) -> None:
        """Waits until it has taken enough of what was said."""
        try:
            async with asyncio.timeout(TAKING_SECONDS):
                await self.writer.drain()
        except TimeoutError:
            raise Cut("") from None

    def close(self) -> None:
        """Closes its link behind what was said, and cuts it off where that isn't taken."""
        self.writer.close()
        asyncio.get_running_loop().call_later(TAKING_SECONDS, self.writer.transport.abort)

    async def cut(self, why: str) -> None:
        """Tells it why it is cut off, and cuts it off."""
        if why:
            self.say_lines(why)
            await asyncio.sleep(READING_SECONDS)
        self.writer.transport.abort()


def lines(piece: bytes) -> list[bytes]:
    """A piece cut behind each line feed, and nowhere else."""
    *whole, rest = piece.split(b"\n")
    return [it + b"\n" for it in whole] + ([rest] if rest else [])
