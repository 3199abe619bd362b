"""A connection to the server whose answers and news are told apart."""

import asyncio
import logging
import socket
import time
from collections import deque
from collections.abc import AsyncIterator
from contextlib import suppress
from types import TracebackType
from typing import Protocol

from . import stamps, texts
from .answer import Answer
from .errors import Closed, NoServer, Silent, TooLong
from .line import Line
from .lines import Goodbye, Opening, parse
from .stream import Stream

PIECE = 65536
PATIENCE = 60.0  # seconds, for the server's answer
GREETING = stamps.GREETING + b"ficslink|python|"

logger = logging.getLogger("ficslink")


class Listener(Protocol):
    """Who takes all lines of a link as they come. Where its `hear` raises, the link is closed by that."""

    def hear(self, lines: tuple[Line, ...]) -> None:
        """Takes the lines of a part of the server, in their order and before whoever asked goes on."""

    @property
    def is_full(self) -> bool:
        """Whether no more is to be read."""

    async def room(self) -> None:
        """Waits until more may be read."""


class _Unheard(Exception):
    """Who listens has failed."""


class _Owed:
    """A line whose answer is due."""

    def __init__(self, command: str) -> None:
        self.command = command
        self.answer: asyncio.Future[Answer] = asyncio.get_running_loop().create_future()


class Link:
    """One link. `async with await Link.open(host, port) as link:` closes it at the end.

    Where there is a `listener`, it hears all lines, and `news()` tells nothing.
    """

    def __init__(
        self,
        reader: asyncio.StreamReader,
        writer: asyncio.StreamWriter,
        *,
        stamped: bool = False,
        listener: Listener | None = None,
        patience: float = PATIENCE,
    ) -> None:
        self._reader, self._writer = reader, writer
        self.stamped, self.patience = stamped, patience
        self._listener = listener
        self.prompt = ""  # the prompt that came last
        self.why = ""  # why the link is closed, once it is
        self._messages = texts.Messages()
        self._part: list[str] = []
        self._owed: deque[_Owed] = deque()
        self._news: Stream[Line] = Stream()
        self._ended = asyncio.Event()
        self._reading: asyncio.Task[None] | None = None

    @classmethod
    async def open(
        cls,
        host: str,
        port: int,
        stamped: bool = False,
        *,
        listener: Listener | None = None,
        patience: float = PATIENCE,
    ) -> "Link":
        """Connects, and waits for `login: `. `NoServer` where nobody answers there, or something else does."""
        try:
            async with asyncio.timeout(patience):
                reader, writer = await asyncio.open_connection(host, port)
        except (OSError, TimeoutError) as fault:
            raise NoServer(f"no server at {host}:{port}: {fault or 'nothing answers'}") from fault
        with suppress(OSError):
            writer.get_extra_info("socket").setsockopt(socket.SOL_SOCKET, socket.SO_KEEPALIVE, 1)
        link = cls(reader, writer, stamped=stamped, listener=listener, patience=patience)
        try:
            await link._begin()
        except (Closed, Silent) as fault:
            await link.close()
            raise NoServer(f"no chess server at {host}:{port}: {fault}") from fault
        except BaseException:
            await link.close()
            raise
        return link

    async def _begin(self) -> None:
        """Starts to read, and takes the opening, which is told like an answer."""
        owed = _Owed("")
        self._owed.append(owed)
        self._reading = asyncio.create_task(self._read())
        if self.stamped:
            self._write(GREETING)
        answer = await self._answer(owed)
        if not answer.lines or not isinstance(answer.lines[0], Opening):
            raise Closed(f"it says {texts.shown(str(answer.lines[0]) if answer.lines else answer.prompt)!r}")

    async def __aenter__(self) -> "Link":
        return self

    async def __aexit__(
        self, kind: type[BaseException] | None, error: BaseException | None, trace: TracebackType | None
    ) -> None:
        await self.close()

    @property
    def is_open(self) -> bool:
        """Whether lines can be sent."""
        return not self.why

    async def ended(self) -> None:
        """Waits until the link is closed."""
        await self._ended.wait()

    @property
    def _room(self) -> "Listener | Stream[Line]":
        """Who says whether more may be read."""
        return self._listener or self._news

    # ---- asking ----

    async def ask(self, line: str) -> Answer:
        """Sends a line; its answer. Lines may be sent ahead: several tasks may ask at a time, and each is answered in
        its turn. `RefusalError` where the server refuses the line, `BadLine` where it can't be sent, `Closed` and
        `Silent` where no answer comes. The answer to `quit` is the farewell."""
        spelled = texts.checked(line)
        if not self.is_open:
            raise Closed(self.why)
        owed = _Owed(line if self.prompt == texts.READY else "")
        self._owed.append(owed)
        self._write(spelled)
        answer = await self._answer(owed)
        if refused := answer.refused:
            raise refused.refusal
        return answer

    async def _answer(self, owed: _Owed) -> Answer:
        try:
            async with asyncio.timeout(self.patience):
                with suppress(ConnectionError):
                    await self._writer.drain()
                return await owed.answer
        except TimeoutError:
            silent = Silent(f"the server has said nothing for {self.patience:g} seconds")
            self._end(str(silent))
            raise silent from None

    def _write(self, line: bytes) -> None:
        if self.stamped:
            line = stamps.sealed(line, int(time.monotonic() * 1000))
        self._writer.write(texts.spelled(line))

    async def close(self) -> None:
        """Closes the link at once. In a game that is a loss, or an adjournment; `ask("quit")` before it says good-bye.
        What has come until now is still told by `news()`."""
        self._end("the link was closed here")
        if self._reading:
            self._reading.cancel()
            await asyncio.gather(self._reading, return_exceptions=True)
        self._writer.close()
        with suppress(OSError, TimeoutError):
            async with asyncio.timeout(1):
                await self._writer.wait_closed()

    # ---- news ----

    async def news(self) -> AsyncIterator[Line]:
        """What comes without being asked for, a line each, in order, also where it came behind an answer. It ends with
        the link. Each line is told once, so one task takes them. Where many wait, no more is read before they are
        taken, unless an answer is due."""
        async for line in self._news:
            yield line

    # ---- reading ----

    async def _read(self) -> None:
        why = "the server has closed the link"
        try:
            while piece := await self._reader.read(PIECE):
                for message in self._messages.of(piece):
                    self._take(message)
                while self._room.is_full and not self._owed:
                    await self._room.room()
        except OSError as fault:
            why = f"the link broke: {fault}"
        except (TooLong, _Unheard) as fault:
            why = str(fault)
        finally:
            self._end(why)

    def _take(self, message: texts.Message) -> None:
        if message.text == texts.WANTS_ACKNOWLEDGEMENT:
            if self.stamped:
                self._write(stamps.ACKNOWLEDGEMENT)
        elif not message.is_prompt:
            self._part.append(message.text)
        else:
            part, self._part = texts.Part(self._part, message.text), []
            self.prompt = message.text
            self._tell(part)

    def _tell(self, part: texts.Part) -> None:
        """Tells news to whoever listens, and an answer to whoever asked."""
        owed = None if part.is_news or not self._owed else self._owed.popleft()
        if not owed:
            read = tuple(parse(it) for it in part.said)
            self._hear(read, read)
            return
        answer, read = Answer.to(owed.command, part.lines, part.prompt)
        try:
            self._hear(read, answer.news)
        finally:
            if not owed.answer.done():
                owed.answer.set_result(answer)

    def _hear(self, lines: tuple[Line, ...], news: tuple[Line, ...]) -> None:
        """Tells lines. `_Unheard` where that fails by whoever listens: what comes behind them would be told to somebody
        who doesn't know these."""
        if not self._listener:
            self._news.put(*news)
            return
        try:
            self._listener.hear(lines)
        except Exception as fault:
            logger.exception("who listens to a link has failed")
            raise _Unheard(f"who listens has failed: {fault or type(fault).__name__}") from fault

    def _end(self, why: str) -> None:
        """The link is closed, for that reason. What came last of the server is told; who asks hears the reason."""
        if self.why:
            return
        self.why = why
        with suppress(_Unheard):  # the link ends all the same
            self._tell_last()
        for owed in self._owed:
            if not owed.answer.done():
                owed.answer.set_exception(Closed(why))
        self._owed.clear()
        self._news.end()
        self._writer.close()
        self._ended.set()

    def _tell_last(self) -> None:
        """Tells what came behind the last prompt."""
        left = texts.Part(self._part + [it.text for it in self._messages.left()], "")
        if Goodbye() in map(parse, left.lines):
            self._tell(left)
        elif left.said:  # cut off, and so no answer
            read = tuple(map(parse, left.said))
            self._hear(read, read)
