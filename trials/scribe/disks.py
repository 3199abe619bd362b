"""Twenty bots play an evening in which the scribe's disk is full three times, the scribe is killed four times, and the
server is stopped and begins anew: `tools/trial scribe.disks`. The archive is to have every half-move that the players
saw, each game once, with its end.

As root, for a disk of its own. A half-move takes three seconds and more, so that at each board at most one is made
while no scribe is there; nobody resigns then, since nobody would see it.
"""

import argparse
import asyncio
import tempfile
import time
from collections import Counter
from pathlib import Path
from random import Random

from tests.kit import paths
from tests.kit.ports import free_port
from tests.kit.running import Run
from tests.kit.small_disk import SmallDisk, small_disk
from trials.tale import Tale

from . import kept
from .players import Game, Manner, Player
from .seen import Seen

BOTS, SECRET = 20, "secret"
THINKS = (3.0, 6.0)  # seconds for a half-move
LENGTHS = (6, 14)  # half-moves of a game
STEPS = ("full", "kill", "kill", "full", "restart", "kill", "full", "kill")
CALM, FULL_SECONDS = 10.0, 8.0  # between two troubles, and of a full disk
HEARD_SECONDS = 2.0  # in which the scribe has heard of who resigned just now, or looks on at all boards
TERMS = "30 0 chess"
What = tuple[str, str, tuple[str, ...], str, str]  # a game: who, the half-moves, how it ended


def what_of(seen: Seen) -> What:
    return seen.white, seen.black, tuple(it.short for it in seen.half_moves), seen.reason, seen.result


class Table:
    """Two bots, who play one game after another."""

    def __init__(self, evening: "Evening", names: tuple[str, str], dice: Random) -> None:
        self.evening, self.dice = evening, dice
        self.pair = [Player(evening.place, it, SECRET) for it in names]
        self.game: Game | None = None

    async def enter(self) -> None:
        for it in self.pair:
            await it.enter()

    async def come_again(self) -> None:
        """Comes to a server that has begun anew, and goes on with the game that was adjourned."""
        for it in self.pair:
            await it.leave()
        await self.enter()
        if self.game:
            length = self.game.length
            await self.game.resume()
            self.game.length = length

    async def play(self) -> None:
        """Plays until the evening is over."""
        while self.game or not self.evening.is_over:
            if not self.game:
                game = Game([tuple(self.dice.sample(self.pair, 2))], "chess", self.dice, Manner())
                game.terms, game.takebacks = TERMS, ()
                game.length = self.dice.randint(*LENGTHS)
                await game.begin()
                self.game = game
            await self.go_on(self.game)
            self.evening.take(self.game)
            self.game = None

    async def go_on(self, game: Game) -> None:
        while not game.is_over:
            await asyncio.sleep(self.dice.uniform(*THINKS))
            if game.made < game.length:
                await game.half_move()
            else:
                await self.evening.is_seen.wait()
                await game.resign()
        for it in game.witnesses:
            await it.hears(lambda: game.seen[it][0].result)


class Evening:
    """What runs, and what was played."""

    def __init__(self, folder: Path, disk: SmallDisk, seed: int, tale: Tale) -> None:
        self.folder, self.disk, self.tale = folder, disk, tale
        self.place = "127.0.0.1", free_port()
        self.played: list[What] = []
        self.is_over, self.is_seen = False, asyncio.Event()
        self.longest = 0.0  # seconds for which no scribe was there
        self.log: list[str] = []  # of all scribes that have ended
        names = [f"Bot{chr(ord('A') + it)}" for it in range(BOTS)]
        self.tables = [Table(self, (names[it], names[it + 1]), Random(f"{seed} {it}")) for it in range(0, BOTS, 2)]
        self.looker = Player(self.place, "Looker")

    def take(self, game: Game) -> None:
        """Takes what both players saw of a game that is over."""
        one, other = (what_of(game.seen[it][0]) for it in game.witnesses)
        if one != other:
            self.tale.lost(f"{one[0]} and {one[1]} saw different games: {one}, {other}")
        self.played.append(one)

    # ---- what runs ----

    def serve(self) -> None:
        run = paths.TOP / "tools" / "launch" / "run"
        words = "serve", "--port", self.place[1], "--store", self.folder / "club.db"
        self.server = Run(run, "--called", "./ficsd", paths.program, *words, start_new_session=True)
        self.server.begin()

    async def begin_scribe(self) -> None:
        address = f"{self.place[0]}:{self.place[1]}"
        words = "--server", address, "--archive", self.disk.folder, "--name", "Scribe"
        self.scribe = Run(paths.companion("fics_scribe"), *words)
        await self.until_scribe_is(True)

    async def until_scribe_is(self, is_in: bool) -> None:
        while any(str(it) == "Scribe" for it in (await self.looker.link.ask("who")).lines) != is_in:
            await asyncio.sleep(0.02)

    async def until_logged(self, text: str, seconds: float = 60.0) -> bool:
        async with asyncio.timeout(seconds):
            while not any(text in it for it in self.scribe.log):
                await asyncio.sleep(0.05)
        return True

    # ---- troubles ----

    async def full(self) -> None:
        """The disk is full, until the scribe has said so and for some seconds more."""
        self.scribe.log.clear()
        self.disk.fill()
        await self.until_logged("the disk doesn't take")
        await asyncio.sleep(FULL_SECONDS)
        self.disk.free()
        await self.until_logged("the disk takes games again")
        self.tale.saw("the disk was full, and the scribe said so")

    async def kill(self) -> None:
        """The scribe is killed, and the next one comes once the server has heard that it is gone."""
        self.is_seen.clear()
        await asyncio.sleep(HEARD_SECONDS)
        begun = time.monotonic()
        self.log += self.scribe.log
        self.scribe.end()
        await self.until_scribe_is(False)
        await self.begin_scribe()
        took = time.monotonic() - begun
        self.longest = max(self.longest, took)
        await asyncio.sleep(HEARD_SECONDS)
        self.is_seen.set()
        self.tale.saw(f"the scribe was killed, and another one was in {took:.1f} seconds later")

    async def restart(self) -> None:
        """The server is stopped by a signal, as somebody does by hand, and begins anew."""
        self.is_seen.clear()
        await asyncio.sleep(HEARD_SECONDS)
        for it in self.playing:
            it.cancel()
        await asyncio.gather(*self.playing, return_exceptions=True)
        running = sum(it.game is not None for it in self.tables)
        await asyncio.to_thread(self.server.terminate)
        said = self.server.log[-1]
        self.tale.holds(f"{running} of the {running} that ran" in said, f"the server was stopped: {said}")
        self.serve()
        await self.looker.leave()
        await self.looker.enter()
        await self.until_scribe_is(True)
        await asyncio.gather(*(it.come_again() for it in self.tables))
        self.begin_playing()
        self.is_seen.set()

    # ---- the evening ----

    def begin_playing(self) -> None:
        self.playing = [asyncio.create_task(it.play()) for it in self.tables]

    async def run(self) -> None:
        self.serve()
        try:
            await asyncio.gather(self.looker.enter(), *(it.enter() for it in self.tables))
            await self.begin_scribe()
            self.is_seen.set()
            self.begin_playing()
            for step in STEPS:
                await asyncio.sleep(CALM)
                await getattr(self, step)()
            self.is_over = True
            await asyncio.gather(*self.playing)
            while list(self.disk.folder.glob("running/*.lines")):
                await asyncio.sleep(0.1)
            self.tale.says("the scribe ends well", await asyncio.to_thread(self.scribe.terminate), 0)
        finally:
            for it in (self.scribe, self.server):
                it.end()
        self.log += self.scribe.log

    def judge(self) -> None:
        """Holds the archive against what was seen."""
        games, _ = kept.read_with_what_waits(self.disk.folder)
        archived = [
            (it.tags["White"], it.tags["Black"], tuple(half[0] for half in it.half_moves), it.reason, it.result)
            for it in games
        ]
        seen, there = Counter(self.played), Counter(archived)
        for it in (seen - there).elements():
            self.tale.lost(f"not in the archive as it was seen: {it}")
        for it in (there - seen).elements():
            # with one half-move a game that goes on is known whole by itself, and what was seen of it before waits on
            is_begun = len(it[2]) == 1 and not it[3]
            is_there = any(it[:2] == whole[:2] and it[2] == whole[2][:1] for whole in self.played)
            told = self.tale.saw if is_begun and is_there else self.tale.lost
            told(f"in the archive, and seen by nobody: {it}")
        half_moves = sum(len(it[2]) for it in self.played)
        self.tale.saw(
            f"{len(self.played)} games, {half_moves} half-moves; no scribe for up to {self.longest:.1f} seconds"
        )


def main() -> None:
    words = argparse.ArgumentParser(prog="trial scribe.disks", description=__doc__.split("\n\n", maxsplit=1)[0])
    words.add_argument("--program", type=Path, default=paths.program)
    words.add_argument("--seed", type=int, default=int(time.time()), metavar="N")
    chosen = words.parse_args()
    paths.program = chosen.program.resolve()
    tale = Tale("scribe.disks")
    tale.saw(f"seed {chosen.seed}")
    with tempfile.TemporaryDirectory(prefix="disks.") as folder, small_disk(Path(folder) / "archive") as disk:

        async def spend() -> Evening:
            evening = Evening(Path(folder), disk, chosen.seed, tale)
            try:
                await evening.run()
            finally:
                for line in evening.log if tale.losses else ():
                    tale.saw(line)
            return evening

        asyncio.run(spend()).judge()
    tale.end()


if __name__ == "__main__":
    main()
