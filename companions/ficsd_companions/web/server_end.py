"""The server's end of a link: what it wrote, as far as the tab hasn't been told it, and whether more can be written."""

import asyncio
import socket
from collections.abc import Callable, Iterable

from ficsd_companions.limits.hearing import LEFT_OUT_SECONDS
from ficslink.errors import TooLong

from .held import Held
from .kept import Kept
from .questions import List
from .talk import Talk

PIECE = 16384
UNSENT = 16384  # bytes that wait for the server before the tab has to
MOST_UNTOLD = 128  # messages that a tab hasn't been told; to who is further behind no talk is told
A_MOMENT = 0.02  # seconds
MOST_OWED = 256  # lines that aren't answered; no more are taken of the tab then


def never() -> bool:
    """What is said of a tab that takes all that it is told, and where there is none."""
    return False


class ServerEnd(asyncio.BufferedProtocol):
    """A socket to the server, read through a `Talk`. What came before the server closed is told in any case, also where
    it closed without reading all that was written."""

    room = memoryview(bytearray(PIECE))  # one for all links, since what is read is taken at once

    transport: asyncio.Transport

    def __init__(self, talk: Talk, keeps_told: bool = False) -> None:
        self.talk = talk
        self.kept, self.held = Kept(keeps_told=keeps_told), Held()
        self.has_reader = True
        self.waits: Callable[[], bool] = never  # whether the tab hasn't taken what it was told
        self.holds = asyncio.Event()  # talk back
        self.over, self.can_write = asyncio.Event(), asyncio.Event()
        self.has_told, self.has_answered = asyncio.Event(), asyncio.Event()
        self.can_write.set()
        self.telling: asyncio.TimerHandle | None = None  # of how much talk was left out

    @property
    def is_over(self) -> bool:
        return self.over.is_set()

    # ---- what the loop calls ----

    def connection_made(self, transport: asyncio.BaseTransport) -> None:
        assert isinstance(transport, asyncio.Transport)
        self.transport = transport
        transport.get_extra_info("socket").setsockopt(socket.SOL_SOCKET, socket.SO_SNDBUF, UNSENT)
        transport.set_write_buffer_limits(high=UNSENT)

    def get_buffer(self, sizehint: int) -> memoryview:
        return self.room

    def buffer_updated(self, nbytes: int) -> None:
        is_behind = self.has_reader and self.kept.untold + len(self.held.talk) > MOST_UNTOLD
        try:
            self.add(self.talk.from_server(bytes(self.room[:nbytes]), is_behind))
        except TooLong:
            self.transport.abort()
        if self.talk.hearing.count and not self.telling:
            self.tell_later(LEFT_OUT_SECONDS)
        self.has_answered.set()

    def tell_later(self, seconds: float) -> None:
        self.telling = asyncio.get_running_loop().call_later(seconds, self.tell_left_out)

    def tell_left_out(self) -> None:
        """Tells how much talk was left out, or a moment later where a part isn't whole."""
        self.telling = None
        if not self.is_over:
            self.add(self.talk.left_out())
            if self.talk.hearing.count:
                self.tell_later(A_MOMENT)

    def connection_lost(self, exc: Exception | None) -> None:
        self.over.set()
        if self.telling:
            self.telling.cancel()
        self.can_write.set()
        self.add(self.talk.left())
        self.let_all_go()
        self.has_told.set()
        self.has_answered.set()

    def pause_writing(self) -> None:
        self.can_write.clear()

    def resume_writing(self) -> None:
        self.can_write.set()

    # ---- from the server ----

    def add(self, texts: Iterable[str]) -> None:
        """Takes what the tab is to be told; talk is held back where the tab waits."""
        self.keep(self.held.of(texts, self.waits()))
        if self.held.talk:
            self.holds.set()

    def keep(self, texts: Iterable[str]) -> None:
        if texts:
            self.kept.add(texts, self.has_reader)
            self.has_told.set()
        if self.kept.is_full and self.has_reader:
            self.transport.pause_reading()

    async def next(self) -> str | None:
        """The next message; none once the server has closed and all was told."""
        while not self.kept.untold:
            if self.is_over:
                return None
            self.has_told.clear()
            await self.has_told.wait()
        text = self.kept.next()
        if not self.kept.untold:
            self.transport.resume_reading()
        return text

    def let_some_go(self) -> None:
        """Has the tab told some of the talk that was held back, unless it still waits."""
        if not self.waits():
            self.keep(self.held.some())
        if not self.held.talk:
            self.holds.clear()

    def let_all_go(self) -> None:
        """Holds nothing back any more."""
        self.waits = never
        self.holds.clear()
        self.keep(self.held.all())

    def lose_reader(self) -> None:
        """From now on nobody is there to be told. What comes is kept as far as there is room, and read in any case."""
        self.let_all_go()
        self.has_reader = False
        self.kept.add((), False)
        self.transport.resume_reading()

    def find_reader(self, heard: int | None, begins_anew: bool) -> bool:
        """Somebody is there to be told again, who has heard so many messages, where it is known: whether it is told
        just what it hasn't heard. Else it knows nothing of what came before, and begins anew."""
        self.let_all_go()
        self.has_reader = True
        is_same = heard is not None and self.kept.go_back(heard) and not begins_anew
        if not is_same:
            self.kept = Kept(self.talk.begin_anew(self.kept.rest()), keeps_told=True)
        self.add(())
        return is_same

    async def progress(self) -> None:
        """Waits until the server has said something, or has closed."""
        if not self.is_over:
            self.has_answered.clear()
            await self.has_answered.wait()

    # ---- to the server ----

    async def write(self, line: bytes) -> None:
        """Writes a line, and waits while the server takes no more. To a server that has closed nothing is written. What
        isn't to be written is answered here."""
        self.add(self.talk.own_answers())
        if line and not self.is_over:
            self.transport.write(line)
            await self.can_write.wait()
        while len(self.talk.owed) > MOST_OWED and not self.is_over:
            await self.progress()

    def ask(self, question: List) -> None:
        """Asks a question of the go-between's own."""
        if not self.is_over and self.can_write.is_set():
            self.transport.write(self.talk.ask(question))

    def close(self) -> None:
        self.transport.close()
