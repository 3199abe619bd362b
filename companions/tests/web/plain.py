"""Players without a page: links of the server to which lines are sent."""

import asyncio
import socket
from collections import deque

from ficslink.texts import Messages, Part, Parts

from .tabs import PATIENCE, Tab


class Plain:
    """A plain link under a name, one line behind the other. `heard` has all lines that came, answers and news."""

    def __init__(self, port: int, name: str) -> None:
        self.socket = socket.create_connection(("127.0.0.1", port), PATIENCE)
        self.cut_up, self.parts = Parts(), deque[Part]()
        self.heard: list[str] = []
        self.part()
        self.ask(name)

    def part(self) -> Part:
        """The next part, an answer or news."""
        while not self.parts:
            piece = self.socket.recv(65536)
            if not piece:
                raise EOFError(f"closed behind {self.heard[-5:]}")
            self.parts += self.cut_up.of(piece)
        self.heard += self.parts[0].lines
        return self.parts.popleft()

    def answer(self) -> list[str]:
        """The lines of the next answer."""
        while (part := self.part()).is_news:
            pass
        return part.lines

    def ask(self, line: str) -> list[str]:
        """Sends a line; the lines of its answer."""
        self.socket.sendall(line.encode() + b"\n")
        return self.answer()

    def hears(self, line: str) -> None:
        """Waits until it was told that line."""
        while line not in self.heard:
            self.part()

    def leave(self) -> None:
        """Leaves the server, which answers by closing the link."""
        self.socket.sendall(b"quit\n")
        while self.socket.recv(65536):
            pass

    def close(self) -> None:
        self.socket.close()


class PlainTab(Tab):
    """A plain link, used as a tab is."""

    def __init__(self, reader: asyncio.StreamReader, writer: asyncio.StreamWriter) -> None:
        self.reader, self.writer = reader, writer
        self.cut_up, self.messages = Messages(), deque[str]()
        self.heard, self.unread = [], []

    @classmethod
    async def open(cls, port: int) -> "PlainTab":
        return cls(*await asyncio.open_connection("127.0.0.1", port))

    async def message(self) -> str:
        async with asyncio.timeout(PATIENCE):
            while not self.messages:
                self.messages += [it.text for it in self.cut_up.of(await self.reader.read(65536))]
        return self.messages.popleft()

    async def send(self, line: str) -> None:
        self.writer.write(line.encode() + b"\n")

    async def close(self) -> None:
        self.writer.close()
