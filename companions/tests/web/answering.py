"""The server's ends of many links, and tabs that do harm at the other side of the go-between."""

import asyncio
import subprocess
import sys
from collections.abc import AsyncIterator, Callable
from contextlib import asynccontextmanager

from . import hostile
from .played import OPENING, Played


class Answers(asyncio.Protocol):
    """The server's end of a link, which answers each line with a prompt, at little cost."""

    transport: asyncio.Transport

    def connection_made(self, transport: asyncio.BaseTransport) -> None:
        assert isinstance(transport, asyncio.Transport)
        self.transport = transport

    def data_received(self, data: bytes) -> None:
        entered = b"Entered as Ann.\n\r" if data.startswith(b"Ann\n") else b""
        self.transport.write(entered + b"fics% " * data.count(b"\n"))


def take(transport: asyncio.WriteTransport, says: bytes = OPENING, taker: Callable[[], Answers] = Answers) -> Answers:
    """Lets a protocol answer a link from now on."""
    assert isinstance(transport, asyncio.Transport)
    transport.write(says)
    answers = taker()
    transport.set_protocol(answers)
    answers.connection_made(transport)
    return answers


@asynccontextmanager
async def serving(played: Played, taker: Callable[[], Answers] = Answers) -> AsyncIterator[None]:
    """Answers each link that comes."""

    async def serve() -> None:
        while True:
            take((await played.ends.get()).writer.transport, taker=taker)

    task = asyncio.create_task(serve())
    try:
        yield
    finally:
        task.cancel()


async def harming(
    played: Played, kind: str, tabs: int, seconds: float
) -> tuple[asyncio.subprocess.Process, asyncio.StreamReader]:
    """A program with so many tabs that do harm of a kind, and what it writes."""
    words = kind, str(played.go_between.port), str(tabs), str(seconds)
    run = await asyncio.create_subprocess_exec(sys.executable, hostile.__file__, *words, stdout=subprocess.PIPE)
    assert run.stdout
    return run, run.stdout
