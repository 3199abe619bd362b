"""The bot of docs/BOTS.md, as its text stands there, over an evening: it thinks half a second for each half-move, and
meanwhile opponents resign and leave, and the server ends."""

import os
import re
from collections.abc import AsyncIterator
from pathlib import Path

import pytest

from ficslink import Game
from tests.kit import paths
from tests.kit.guests import Guest
from tests.kit.running import Run, Server, async_wait_until

PAGE = paths.TOP / "docs" / "BOTS.md"
BOT = re.compile(r"^```python\n(# robin\.py\b.*?)^```$", re.MULTILINE | re.DOTALL)
THINKS = 0.5  # seconds


class Evening:
    """A server, and Robin, who thinks by a program that takes its time."""

    def __init__(self, folder: Path) -> None:
        self.folder = folder
        found = BOT.search(PAGE.read_text(encoding="utf-8"))
        assert found, f"no bot in {PAGE}"
        (folder / "robin.py").write_text(found[1], encoding="utf-8")
        self.asked = folder / "asked"
        self.asked.touch()
        program = folder / "ficsd"
        program.write_text(f'#!/bin/sh\necho >>{self.asked}\nsleep {THINKS}\nexec {paths.program} "$@"\n')
        program.chmod(0o755)
        self.server = Server(folder / "club.db")
        env = {**os.environ, "PYTHONPATH": str(paths.COMPANIONS), "PYTHONUNBUFFERED": "1"}
        words = "python3", folder / "robin.py", "localhost", self.server.port
        self.robin = Run(*words, cwd=folder, env=env)

    async def guest(self, name: str) -> Guest:
        """Who comes once Robin is in."""
        guest = await Guest.enter(self.server.port, name)
        await guest.answered("who", lambda texts: "Robin" in texts)
        return guest

    async def game(self, guest: Guest) -> Game:
        """A game in which the guest has White."""
        return await guest.challenges("5 0 white", "Robin")

    async def thinks(self, guest: Guest, word: str) -> None:
        """Makes a half-move, and waits until Robin thinks about the next one."""
        before = self.thoughts()
        await guest.does(word)
        assert await async_wait_until(lambda: self.thoughts() > before, unless=self.robin.has_told_all), self.robin.log

    def thoughts(self) -> int:
        """How many half-moves Robin has thought about."""
        return self.asked.stat().st_size

    def look(self) -> None:
        """Robin is there, and nothing has gone wrong that it had to say."""
        assert self.robin.process.poll() is None, self.robin.log
        assert not [it for it in self.robin.log if "Traceback" in it], self.robin.log

    def end(self) -> None:
        self.robin.end()
        self.server.end()


@pytest.fixture
async def evening(tmp_path: Path) -> AsyncIterator[Evening]:
    it = Evening(tmp_path)
    yield it
    it.end()


async def test_an_evening(evening: Evening) -> None:
    ann = await evening.guest("Ann")
    game = await evening.game(ann)
    await evening.thinks(ann, "e4")
    await ann.does("resign")
    evening.robin.until(r"^Ann Robin 0-1 Ann resigns$", evening.robin.out)
    game = await evening.game(ann)
    await ann.plays(game, "e2e4")
    await ann.turn(game, 2)
    await evening.thinks(ann, "d4")
    await ann.leave()
    evening.robin.until(r"^Ann Robin 0-1 ", evening.robin.out, times=2)
    ben = await evening.guest("Ben")
    await evening.game(ben)
    await evening.thinks(ben, "e4")
    evening.server.terminate()
    await ben.leave()
    evening.server = Server(evening.folder / "club.db", evening.server.port)
    cat = await evening.guest("Cat")
    game = await evening.game(cat)
    await cat.plays(game, "e2e4", "d2d4")
    await cat.turn(game, 4)
    await cat.leave()
    evening.look()
