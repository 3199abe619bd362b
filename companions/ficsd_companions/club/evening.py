"""An evening: server, page and House are started one after another, looked after, and ended in order."""

import asyncio
import signal
from pathlib import Path

from ficslink.errors import LinkError
from ficslink.link import Link

from . import checks, search
from .checks import Missing
from .options import Chosen
from .part import Part

HOUSE = "House"
ANSWER_PAUSE = 0.3
HOUSE_SECONDS, PAGE_SECONDS, SERVER_SECONDS = 15.0, 15.0, 90.0  # to end in order, the server with what it keeps
SHOUT_SECONDS = 0.5  # for members to hear of the end; the server tells news ten times a second
NOTHING_KEPT = "Nothing of this evening is kept: accounts that are registered and games end with it"
AGAIN_PAUSES = (1.0, 3.0, 10.0, 30.0)  # before what has ended is started again; from then on the last one
CANT_COME = (2, 3)  # statuses of the bot with which it can't be started again


def show(text: str) -> None:
    """Writes a line."""
    print(text, flush=True)


class Evening:
    """The three programs of a club."""

    def __init__(self, chosen: Chosen, top: Path, folder: Path) -> None:
        self.chosen, self.top, self.folder = chosen, top, folder
        where = f"127.0.0.1:{chosen.port}"
        self.server = Part("the server", self.server_words(), show)
        self.page = Part(
            "the page", [top / "companions/fics_web", "--server", where, "--listen", str(chosen.page_port)], show
        )
        self.house: Part | None = None
        self.is_ending = False
        self.stop: asyncio.Future[None] = asyncio.get_running_loop().create_future()

    def server_words(self) -> list[str | Path]:
        """The command of the server."""
        chosen = self.chosen
        words: list[str | Path] = [self.top / "ficsd"]
        if chosen.program:
            words = [self.top / "tools/launch/run", "--called", "./ficsd", chosen.program]
        words += ["--unproved"] if chosen.is_unproved else []
        words += ["serve", "--port", str(chosen.port)]
        return words + (["--store", chosen.store.absolute()] if chosen.store else [])

    def house_words(self, program: Path | None) -> list[str | Path]:
        """The command of House, whose password and half-moves lie beside the store."""
        beside = self.chosen.store.absolute() if self.chosen.store else self.folder / "club"
        words: list[str | Path] = [
            self.top / "companions/fics_bot",
            "--server",
            f"127.0.0.1:{self.chosen.port}",
            "--name",
            HOUSE,
            "--engine",
            self.chosen.engine,
            "--minutes",
            "0..60",
            "--increments",
            "0..60",
            "--most",
            "8",
            "--take",
            "5",
            "--password",
            f"{beside}-house",
            "--games",
            f"{beside}-house-games",
            "--grace",
            "3",
            "--patience",
            "10",
            "--hall",
        ]
        words += [] if self.chosen.store else ["--greet", f"{NOTHING_KEPT}."]
        return words + (["--program", program] if program else [])

    # ---- the beginning ----

    async def begin(self) -> None:
        """Starts all three, each once the one before answers."""
        await self.server.begin()
        while not (self.server.ready.is_set() or checks.is_answering(self.chosen.port)):
            self.check_server()
            await asyncio.sleep(ANSWER_PAUSE)
        await asyncio.sleep(ANSWER_PAUSE)  # a server whose port can't be had says that it is ready, and ends at once
        self.check_server()
        assert self.server.process
        program = self.chosen.program
        if self.chosen.is_unproved:
            program = search.copied(self.top, self.server.process.pid, self.folder)
        self.house = Part(HOUSE, self.house_words(program), show)
        for it in (self.page, self.house):
            await it.begin()
            await self.is_ready(it)
        await asyncio.sleep(ANSWER_PAUSE)  # what they say as they begin comes before this
        show(f"Open http://localhost:{self.chosen.page_port}/ and challenge {HOUSE}")
        if not self.chosen.store:
            show(f"{NOTHING_KEPT}; with --store FILE they are kept")
        show(f"Who has telnet comes to port {self.chosen.port}; Ctrl-C ends the club")

    def check_server(self) -> None:
        """The server runs."""
        if not self.server.is_running:
            raise Missing("the server has ended")

    async def is_ready(self, part: Part) -> None:
        """Waits until a part is ready."""
        ready, ended = asyncio.create_task(part.ready.wait()), asyncio.create_task(part.ended())
        try:
            await asyncio.wait((ready, ended), return_when=asyncio.FIRST_COMPLETED)
            if not part.ready.is_set():
                raise Missing(f"{part.name} can't begin, with status {ended.result()}")
        finally:
            ready.cancel()
            ended.cancel()

    # ---- the evening ----

    async def go_on(self) -> None:
        """Until it is told to end, or the server ends."""
        assert self.house
        watches = [asyncio.create_task(it) for it in (self.server_ends(), self.keep(self.page), self.keep(self.house))]
        try:
            done, _ = await asyncio.wait((self.stop, *watches), return_when=asyncio.FIRST_COMPLETED)
            for it in done:
                it.result()
        finally:
            for watch in watches:
                watch.cancel()

    async def server_ends(self) -> None:
        """The server has ended."""
        raise Missing(f"the server has ended, with status {await self.server.ended()}")

    async def keep(self, part: Part) -> None:
        """Starts a part again whenever it ends."""
        times = 0
        while True:
            began = asyncio.get_running_loop().time()
            status = await part.ended()
            await asyncio.sleep(ANSWER_PAUSE)  # the server may have ended, and told that first
            if part is self.house and status in CANT_COME:
                raise Missing(f"{part.name} can't come again")
            lived = asyncio.get_running_loop().time() - began
            times = 0 if lived > AGAIN_PAUSES[-1] else times
            pause = AGAIN_PAUSES[min(times, len(AGAIN_PAUSES) - 1)]
            times += 1
            show(f"{part.name} has ended ({status}), and begins again in {pause:g} seconds")
            await asyncio.sleep(pause)
            await part.begin()

    # ---- the end ----

    def told_to_end(self) -> None:
        """Ends the evening in order; told again, at once."""
        if not self.stop.done():
            self.stop.set_result(None)
        elif self.is_ending:
            for part in (self.house, self.page, self.server):
                if part and part.is_running:
                    part.send(signal.SIGKILL)

    async def end(self) -> None:
        """Tells everybody, and ends House, then the page, whose members leave by that, and then the server, which cuts
        whatever else is connected. Each who leaves has its game adjourned where both have accounts."""
        self.is_ending = True
        if self.server.is_running:
            show("ending: House leaves, the page closes, the server ends")
            await self.shout()
        if self.house:
            await self.house.end(HOUSE_SECONDS)
        await self.page.end(PAGE_SECONDS)
        await self.server.end(SERVER_SECONDS)

    async def shout(self) -> None:
        """Tells everybody that the club ends, where there is a place from which to do so."""
        kept = "Games between accounts are adjourned and kept" if self.chosen.store else NOTHING_KEPT
        try:
            async with asyncio.timeout(SHOUT_SECONDS):
                async with await Link.open("127.0.0.1", self.chosen.port) as link:
                    await link.ask("guest")
                    await link.ask(f"shout The club closes now. {kept}.")
                    await link.ask("quit")
        except (LinkError, TimeoutError):
            return
        await asyncio.sleep(SHOUT_SECONDS)


async def spend(chosen: Chosen, top: Path, folder: Path) -> None:
    """An evening from its beginning to its end."""
    evening = Evening(chosen, top, folder)
    for number in (signal.SIGINT, signal.SIGTERM, signal.SIGHUP):
        asyncio.get_running_loop().add_signal_handler(number, evening.told_to_end)
    beginning = asyncio.create_task(evening.begin())
    try:
        await asyncio.wait((beginning, evening.stop), return_when=asyncio.FIRST_COMPLETED)
        if beginning.done():
            beginning.result()
            await evening.go_on()
    finally:
        beginning.cancel()
        await asyncio.gather(beginning, return_exceptions=True)
        await evening.end()
