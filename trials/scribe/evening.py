"""An evening: a server, a scribe, and tables at which players play one game after another."""

import asyncio
import itertools
import time
from collections.abc import Iterable
from pathlib import Path
from random import Random

from ficslink import RefusalError
from tests.kit import paths
from tests.kit.running import Run, Server

from .judge import Dark, Played
from .players import PATIENCE, Game, Manner, Player

SECRET = "secret"
BOARDS = 128
GIVERS = 16  # each plays with each other at once


async def until(holds, seconds: float = PATIENCE) -> None:
    """Waits until something holds."""
    async with asyncio.timeout(seconds):
        while not await holds():
            await asyncio.sleep(0.05)


class Evening:
    """What runs, and what was played."""

    def __init__(self, folder: Path, seed: int) -> None:
        self.folder, self.seed = folder, seed
        self.archive = folder / "archive"
        self.played: list[Played] = []
        self.dark: list[Dark] = []
        self.faults: list[str] = []
        self.scribes: list[Run] = []  # one after another
        self._names = itertools.count()

    async def begin(self) -> None:
        self.folder.mkdir(parents=True, exist_ok=True)
        self.server = Server(self.folder / "club.db")
        self.place = "127.0.0.1", self.server.port
        self.looker = Player(self.place, "Looker")
        await self.looker.enter()
        scribe = Player(self.place, "Scribe", SECRET)
        await scribe.enter()
        await scribe.leave()
        password = self.folder / "password"
        password.touch(0o600)
        password.write_text(f"{SECRET}\n")
        await self.begin_scribe()

    async def begin_scribe(self) -> None:
        self.scribe = Run(
            paths.companion("fics_scribe"),
            "--server",
            self.server.address,
            "--archive",
            self.archive,
            "--name",
            "Scribe",
            "--password-file",
            self.folder / "password",
        )
        self.scribes.append(self.scribe)
        await until(self.is_scribe_in)

    async def is_scribe_out(self) -> bool:
        return not await self.is_scribe_in()

    async def is_scribe_in(self) -> bool:
        return any(str(it) == "Scribe" for it in (await self.looker.link.ask("who")).lines)

    async def end(self) -> None:
        """Ends it, once the scribe has heard of the end of each game."""

        async def is_kept() -> bool:
            return not list(self.archive.glob("running/*.lines"))

        await until(is_kept)
        if status := await asyncio.to_thread(self.scribe.terminate):
            self.faults.append(f"the scribe ended with {status}: {self.scribe.log[-3:]}")

    def stop(self) -> None:
        for it in (self.scribe, self.server):
            it.end()
        lines = [line for scribe in self.scribes for line in scribe.log]
        (self.folder / "log").write_text("".join(f"{it}\n" for it in lines), encoding="utf-8")

    # ---- killing ----

    async def kill(self, times: int, dice: Random) -> None:
        """Kills the scribe again and again, and has another one come once the server has heard that it is gone: before
        that nobody could tell the one from the other by its name."""
        for _ in range(times):
            await asyncio.sleep(dice.uniform(3, 10))
            begun = time.time()
            self.scribe.end()
            await until(self.is_scribe_out)
            await self.begin_scribe()
            self.dark.append(Dark(begun, time.time()))

    # ---- tables ----

    def player(self, password: str = "", gives: bool = False) -> Player:
        number = next(self._names)
        letters = "".join(chr(ord("A") + number // 26**it % 26) for it in (2, 1, 0))
        return Player(self.place, f"Bot{letters}", password, gives)

    def tables(self, duels: int, fours: int, opponents: int = 0) -> list[list[Player]]:
        """Tables of two, half of them with accounts; of four; and those of who gives a simul to so many."""
        found = [[self.player(SECRET if at % 2 else "") for _ in range(2)] for at in range(duels)]
        found += [[self.player() for _ in range(4)] for _ in range(fours)]
        giver = self.player(gives=True)
        return found + [[giver, self.player()] for _ in range(opponents)]

    def tables_of_givers(self) -> list[list[Player]]:
        """So many tables as there are boards, by few links: 256 people left no place for the scribe. Each of the givers
        of simuls plays with each other, and the other tables are of four."""
        givers = [self.player(gives=True) for _ in range(GIVERS)]
        found = [list(it) for it in itertools.combinations(givers, 2)]
        return found + [[self.player() for _ in range(4)] for _ in range(BOARDS - len(found))]

    async def play(
        self,
        part: str,
        tables: list[list[Player]],
        numbers: Iterable[int],
        manners: list[Manner],
        together: asyncio.Barrier | None = None,
    ) -> None:
        """Plays so many games as there are numbers, each table with one of the manners in turn. The first ones begin
        `together`."""
        begun, people = time.monotonic(), list(dict.fromkeys(it for table in tables for it in table))
        for it in people:
            await it.enter()
        numbers, played = iter(numbers), len(self.played)
        async with asyncio.TaskGroup() as group:
            for at, table in enumerate(tables):
                group.create_task(self._sit(part, at, table, numbers, manners[at % len(manners)], together))
        await asyncio.gather(*(it.leave() for it in people))
        print(f"{part}: {len(self.played) - played} boards in {time.monotonic() - begun:.0f} seconds", flush=True)

    async def _sit(self, part, at, table, numbers, manner, together) -> None:
        for own, _ in enumerate(numbers):
            dice = Random(f"{self.seed} {part} {at} {own}")
            variant, boards = self._game_of(table, dice)
            game = Game(boards, variant, dice, manner)
            await game.begin()
            if together:
                await together.wait()
                together = None
            self._take(part, await game.play())
        if together:
            raise ValueError("a table without a game")

    def _game_of(self, table: list[Player], dice: Random):
        if len(table) == 4:
            return "bughouse", [(table[0], table[1]), (table[2], table[3])]
        variant = dice.choices(("chess", "crazyhouse", f"fischer {dice.randrange(960)}"), (3, 1, 1))[0]
        is_fixed = table[0].gives and not table[1].gives  # a giver has White then
        return variant, [tuple(table if is_fixed else dice.sample(table, 2))]

    def _take(self, part: str, boards) -> None:
        for seen in boards:
            self.played.append(Played(seen[0], part))
            if any(it.what != seen[0].what for it in seen):
                self.faults.append(f"{seen[0].white} and {seen[0].black} saw different games")

    async def all_boards(self) -> None:
        """Waits until all boards are in use, and the scribe looks on at each."""

        async def are_seen() -> bool:
            return len(list(self.archive.glob("running/*.lines"))) == BOARDS

        await until(are_seen)
        try:
            desks = {(it.game + 1) // 2 for it in (await self.looker.link.ask("games")).lines}
        except RefusalError as refusal:
            raise ValueError("no list of games") from refusal
        if len(desks) != BOARDS:
            self.faults.append(f"{len(desks)} boards at once")
