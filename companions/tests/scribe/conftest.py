"""A server, a scribe and players who type what stands in the tests; and an archive without these."""

import signal
from collections.abc import AsyncIterator
from contextlib import suppress
from pathlib import Path

import pytest

from ficsd_companions.scribe.archive import Archive
from ficslink.answer import Answer
from ficslink.link import Link
from tests.kit import paths
from tests.kit.ports import free_port
from tests.kit.running import Run, Server, async_wait_until

from .archived import Game, games_of


class Evening:
    """A server with a store, and a scribe that looks on."""

    def __init__(self, folder: Path) -> None:
        self.store, self.archive = folder / "club.db", folder / "archive"
        self.port = free_port()
        self.players: dict[str, Link] = {}
        self.start_server()
        self.scribe = self.run_scribe()

    def start_server(self) -> None:
        self.server = Server(self.store, self.port)

    def run_scribe(self) -> Run:
        words = "--server", self.server.address, "--archive", self.archive, "--name", "Scribe"
        return Run(paths.companion("fics_scribe"), *words)

    async def start_scribe(self) -> None:
        self.scribe = self.run_scribe()
        await self.until_scribe_is_in()

    async def until_scribe_is_in(self) -> None:
        async with await Link.open("127.0.0.1", self.port) as link:
            await link.ask("Looker")

            async def is_in() -> bool:
                return "Scribe" in map(str, (await link.ask("who")).lines)

            assert await async_wait_until(is_in, unless=self.scribe.has_told_all), self.scribe.log
            await link.ask("quit")

    def stop_scribe(self) -> None:
        assert self.scribe.terminate() == 0, self.scribe.log

    def kill_scribe(self) -> None:
        assert self.scribe.terminate(signal.SIGKILL) == -signal.SIGKILL

    async def close(self) -> None:
        for link in self.players.values():
            await link.close()
        if self.scribe.process.poll() is None:
            self.stop_scribe()

    # ---- players ----

    async def enter(self, *names: str, password: str | None = None) -> None:
        for name in names:
            link = self.players[name] = await Link.open("127.0.0.1", self.port)
            answer = await link.ask(name)
            if answer.prompt == "password: ":
                await link.ask(password or "")

    async def register(self, *names: str) -> None:
        await self.enter(*names)
        for name in names:
            await self.say(name, f"register {name}")

    async def say(self, name: str, line: str) -> Answer:
        return await self.players[name].ask(line)

    async def play(self, words: str, white: str = "Ann", black: str = "Ben") -> None:
        """Half-moves by turns, White first."""
        for at, word in enumerate(words.split()):
            await self.say((white, black)[at % 2], word)

    async def seat(self, terms: str = "5 0", white: str = "Ann", black: str = "Ben") -> None:
        """Seats two, once they and the scribe have heard of the end of what they played, and waits until the scribe
        looks on."""
        await self.all_hear()
        await async_wait_until(lambda: not self.is_seen(white, black))
        await self.say(white, f"match {black} {terms} white")
        await self.say(black, f"accept {white}")
        await self.until_seen(white, black)

    async def all_hear(self) -> None:
        """All players hear what there is to hear."""
        for name in self.players:
            await self.say(name, "")

    # ---- what the scribe has seen ----

    def journals(self, folder: str) -> list[Path]:
        return list((self.archive / folder).glob("*.lines"))

    def is_seen(self, *names: str) -> bool:
        return any(all(it in path.name for it in names) for path in self.journals("running"))

    async def until_seen(self, *names: str) -> None:
        assert await async_wait_until(lambda: self.is_seen(*names)), self.scribe.log

    async def until_waits(self) -> None:
        """Waits until a game is kept that doesn't go on now."""
        assert await async_wait_until(lambda: self.journals("waiting") != []), self.scribe.log

    async def until_told(self, word: str) -> None:
        """Waits until it has that half-move as a game's last."""

        def is_last() -> bool:
            texts = []
            for it in self.journals("running"):
                with suppress(FileNotFoundError):  # it was let go just now
                    texts.append(it.read_text(encoding="utf-8"))
            return any(f" {word} 0\n" in it for it in texts)

        assert await async_wait_until(is_last), self.scribe.log

    async def kept(self, count: int = 1) -> list[Game]:
        """The games that are written, once there are so many."""
        assert await async_wait_until(lambda: len(games_of(self.archive)) >= count), self.scribe.log
        return games_of(self.archive)


@pytest.fixture
async def evening(tmp_path: Path) -> AsyncIterator[Evening]:
    it = Evening(tmp_path)
    try:
        await it.until_scribe_is_in()
        yield it
        await it.close()
    finally:
        it.scribe.end()
        it.server.end()


@pytest.fixture
def archive(tmp_path: Path) -> Archive:
    """One that nobody has written into."""
    return Archive(tmp_path, "")
