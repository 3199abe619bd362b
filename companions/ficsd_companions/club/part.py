"""One of the programs that a club runs."""

import asyncio
import os
import signal
from collections.abc import Callable, Sequence
from pathlib import Path

KILL_SECONDS = 5.0
LONGEST_LINE = 1 << 16


async def whole_line(stream: asyncio.StreamReader) -> bytes:
    """The next line; of one that is too long to be shown nothing but its end."""
    while True:
        try:
            return await stream.readline()
        except ValueError:
            continue


class Part:
    """A program, whose lines are shown as they come. `ready` is set once it has written that line."""

    def __init__(self, name: str, words: Sequence[str | Path], show: Callable[[str], None]) -> None:
        self.name, self.words, self.show = name, [str(it) for it in words], show
        self.process: asyncio.subprocess.Process | None = None
        self.ready = asyncio.Event()
        self.readers: list[asyncio.Task[None]] = []

    async def begin(self) -> None:
        """Starts it, away from this terminal's Ctrl-C."""
        self.ready.clear()
        self.process = await asyncio.create_subprocess_exec(
            *self.words,
            stdin=asyncio.subprocess.DEVNULL,
            stdout=asyncio.subprocess.PIPE,
            stderr=asyncio.subprocess.PIPE,
            start_new_session=True,
            limit=LONGEST_LINE,
        )
        assert self.process.stdout and self.process.stderr
        self.readers = [asyncio.create_task(self.read(it)) for it in (self.process.stdout, self.process.stderr)]

    async def read(self, stream: asyncio.StreamReader) -> None:
        """Shows its lines, but for those by which programs tell each other that they begin and end."""
        while line := await whole_line(stream):
            text = line.decode("utf-8", "replace").rstrip()
            if text == "ready":
                self.ready.set()
            elif text not in ("", "closed"):
                self.show(text)

    @property
    def is_running(self) -> bool:
        """Whether it runs."""
        return self.process is not None and self.process.returncode is None

    async def ended(self) -> int:
        """Its status, once it has ended and all of its lines were shown."""
        assert self.process
        status = await self.process.wait()
        await asyncio.gather(*self.readers, return_exceptions=True)
        return status

    async def end(self, seconds: float) -> None:
        """Ends it, in its own order if that takes no longer than so many seconds."""
        if not self.process or not self.is_running:
            return
        self.send(signal.SIGTERM)
        try:
            async with asyncio.timeout(seconds):
                await self.process.wait()
        except TimeoutError:
            self.show(f"{self.name} doesn't end, and is killed")
        finally:
            self.send(signal.SIGKILL)
        async with asyncio.timeout(KILL_SECONDS):
            await self.ended()

    def send(self, number: signal.Signals) -> None:
        """Sends a signal: to it, or where it is to be killed to all that it has started."""
        assert self.process
        try:
            if number == signal.SIGKILL:
                os.killpg(self.process.pid, number)
            else:
                self.process.send_signal(number)
        except ProcessLookupError:
            pass
