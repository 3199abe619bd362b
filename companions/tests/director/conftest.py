"""A server with a store, players and a director."""

import asyncio
import subprocess
from collections.abc import AsyncIterator, Callable
from pathlib import Path

import pytest

from tests.director.players import Player
from tests.kit import paths
from tests.kit.running import PATIENCE, Run, Server, async_wait_until

RUNS = 0.8  # seconds behind the opening of a round games run


def table_of(file: Path) -> list[list[str]]:
    """The table that the program says of an evening's file."""
    lines = file.read_text() + "table\n"
    words = [str(paths.program), "tourney"]
    said = subprocess.run(words, input=lines, capture_output=True, text=True, check=True).stdout
    players = sum(it.startswith("join ") for it in lines.splitlines())
    return [it.split() for it in said.splitlines()[-players:]]


class Evening:
    """An evening of a server, of which a director keeps the file; its chief is Zoe."""

    def __init__(self, server: Server, folder: Path) -> None:
        self.server, self.folder, self.file = server, folder, folder / "evening.tourney"
        self.players: dict[str, Player] = {}
        self.directors: list[Run] = []

    async def come(self, *names: str) -> None:
        """They come and join, one behind the other."""
        for name in names:
            await (await self.comes_in(Player(self.server.port, name))).join()

    async def come_with_accounts(self, *names: str) -> None:
        """The same, and the password of each is its name twice."""
        for name in names:
            await self.come(name)
            await self.players[name].say(f"register {name}{name}")

    async def come_back(self, name: str, obeys: bool = True) -> Player:
        """One with an account comes again."""
        await self.go(name)
        player = Player(self.server.port, name, name + name)
        player.obeys = obeys
        return await self.comes_in(player)

    async def comes_in(self, player: Player) -> Player:
        self.players[player.name] = player
        await player.come()
        return player

    async def go(self, *names: str) -> None:
        for name in names:
            await self.players.pop(name).go()

    # ---- the director ----

    def direct(self, *words: object) -> None:
        """Starts a director."""
        where = ("--server", self.server.address, "--file", self.file, "--program", paths.program, "--chief", "Zoe")
        self.directors.append(Run(paths.companion("fics_director"), *where, *words))

    @property
    def director(self) -> Run:
        """The director that was started last."""
        return self.directors[-1]

    async def kill_again_and_again(self, is_enough: Callable[[], bool], *words: object) -> int:
        """Kills it behind each change of the file until it is enough, as games run where a round was opened; how
        often."""
        seen, kills = 0, 0

        def is_due() -> bool:
            return len(self.lines()) > seen or is_enough()

        while await async_wait_until(is_due) and not is_enough():
            lines = self.lines()
            seen = len(lines)
            if lines[-1].startswith("round "):
                await asyncio.sleep(RUNS)
            if self.director.process.poll() is None:
                self.director.end()
                kills += 1
                self.direct(*words)
        return kills

    async def end(self) -> list[list[str]]:
        """The table that the director shows as it ends."""
        await self.until(self.director.has_told_all)
        assert self.director.rest() == 0, self.log()
        return [it.split() for it in self.director.out]

    def log(self) -> str:
        return "\n".join(line for it in self.directors for line in it.log)

    def lines(self) -> list[str]:
        return self.file.read_text().splitlines() if self.file.exists() else []

    async def until(self, holds: Callable[[], bool]) -> None:
        """Waits until something holds."""
        assert await async_wait_until(holds), f"it doesn't come to be:\n{self.log()}\n{self.lines()}"

    async def until_joined(self, count: int) -> None:
        """Waits until so many have joined."""
        await self.until(lambda: sum(it.startswith("join ") for it in self.lines()) == count)

    async def begin(self, count: int) -> None:
        """Begins once so many have joined, as the chief says, who says it again where no director is there."""
        await self.until_joined(count)
        zoe = await self.comes_in(Player(self.server.port, "Zoe"))
        async with asyncio.timeout(PATIENCE):
            while "start" not in self.lines():
                await zoe.say("tell Director start")
                await async_wait_until(lambda: "start" in self.lines(), seconds=1)


@pytest.fixture
async def evening(server: Server, tmp_path: Path) -> AsyncIterator[Evening]:
    it = Evening(server, tmp_path)
    yield it
    for player in it.players.values():
        await player.go()
    for director in it.directors:
        director.end()
