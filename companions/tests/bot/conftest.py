"""A server, bots that come to it, and guests."""

from collections.abc import AsyncIterator
from pathlib import Path

import pytest

from tests.bot import engines
from tests.kit import paths
from tests.kit.guests import Guest
from tests.kit.running import Run, Server


class Bot(Run):
    """A bot that is in."""

    def __init__(self, port: int, *words: object, engine: object = "house:1") -> None:
        named = ("--server", f"127.0.0.1:{port}", "--name", "House", "--engine", engine, "--program", paths.program)
        super().__init__(paths.companion("fics_bot"), *named, *words)
        self.begin()


class Evening:
    """A server over a store in a folder, and who comes to it."""

    def __init__(self, server: Server, folder: Path) -> None:
        self.server, self.folder = server, folder
        self.runs: list[Run] = []
        self.guests: list[Guest] = []

    def bot(self, *words: object, engine: object = "house:1") -> Bot:
        """A bot that is in."""
        bot = Bot(self.server.port, *words, engine=engine)
        self.runs.append(bot)
        return bot

    def fake(self, kind: str, *words: object) -> Bot:
        """A bot by an engine that a test made."""
        return self.bot(*words, engine=engines.engine(self.folder, kind))

    def with_account(self, *words: object) -> Bot:
        """A bot with an account, that keeps its games."""
        return self.bot("--password", self.folder / "password", "--games", self.folder / "games", *words)

    async def guest(self, name: str, password: str | None = None) -> Guest:
        """A guest that is in; one with a password has an account."""
        self.guests.append(await Guest.enter(self.server.port, name, password))
        return self.guests[-1]


@pytest.fixture
async def evening(server: Server, tmp_path: Path) -> AsyncIterator[Evening]:
    it = Evening(server, tmp_path)
    yield it
    for guest in it.guests:
        await guest.leave()
    for run in it.runs:
        run.end()
