"""The director among the members: hears what they tell it, and takes each step once it is due."""

import asyncio
import logging
import time
from datetime import datetime
from pathlib import Path

from ficslink import lines
from ficslink.errors import LinkError, PasswordWanted, RefusalError
from ficslink.events import CameAgain, Ended, LinkLost
from ficslink.member import Member
from ficslink.refusals import WAITABLE

from . import due, games, seeds, talk
from .answers import Answers
from .evening import BadFile, Row
from .ledger import Ledger
from .open_round import OpenRound
from .options import Chosen

logger = logging.getLogger("fics_director")
LONGEST_PAUSE = 60.0
CALM = 0.5  # seconds between two looks at who is there, and between two while no round is open
FIRST_SECONDS = 10.0  # in which a scribe has made its archive
ARCHIVE_SECONDS = 30.0  # in which a game that has just ended stands in the archive


class Fault(Exception):
    """What ends the director."""


class Director:
    """Runs the evening of a file."""

    def __init__(self, chosen: Chosen, password: str | None, ledger: Ledger) -> None:
        self.chosen, self.password, self.ledger = chosen, password, ledger
        self.is_told_to_start = False
        self._acting = asyncio.Lock()  # what is heard and what is due are done one after another
        self._looked = 0.0
        self._present: set[str] = set()
        self._last_fault = ""

    async def run(self) -> list[Row]:
        """Runs it to its end; the table. `Fault` where it can't go on."""
        await self.ledger.open()
        await self._look_at_archive()
        self.round = OpenRound(self.chosen, self.ledger, self.tell, self.announce)
        self.answers = Answers(self)
        while not await self._stay():
            logger.warning("the server has said good-bye")
            await asyncio.sleep(CALM)
        return self.ledger.evening.table

    async def _look_at_archive(self) -> None:
        """Sees, before anybody plays, that there is an archive to take the games from. A scribe that was started just
        now has a while to make it."""
        deadline = time.monotonic() + FIRST_SECONDS
        while self.chosen.archive:
            try:
                games.files(self.chosen.archive)
                return
            except OSError as fault:
                if time.monotonic() >= deadline:
                    raise Fault(f"the archive can't be used: {fault}") from fault
            await asyncio.sleep(CALM)

    async def _stay(self) -> bool:
        """Goes in, and stays until the evening is over, or the server has said good-bye; whether it is over."""
        self.member = await self._come()
        self.round.begin(time.monotonic())
        tasks = [asyncio.create_task(self._hear()), asyncio.create_task(self._work())]
        try:
            done, _ = await asyncio.wait(tasks, return_when=asyncio.FIRST_COMPLETED)
            for task in done:
                task.result()
            return tasks[1] in done
        except LinkError as fault:
            raise Fault(str(fault)) from fault
        finally:
            for task in tasks:
                task.cancel()
            await asyncio.gather(*tasks, return_exceptions=True)
            await self.member.leave()

    async def _come(self) -> Member:
        """Goes in, as often as it takes while waiting may help."""
        settings = ["set open 0", "set shout 0", "set seek 0"]
        if self.chosen.channel is not None:
            settings.append(f"+channel {self.chosen.channel}")
        pause = 1.0
        while True:
            try:
                return await Member.enter(*self.chosen.server, self.chosen.name, self.password, settings=settings)
            except RefusalError as refusal:
                if refusal.refusal not in WAITABLE:
                    raise Fault(f"the server refuses {self.chosen.name}: {refusal}") from refusal
                why: LinkError = refusal
            except PasswordWanted as fault:
                raise Fault(str(fault)) from fault
            except LinkError as fault:  # the server isn't there, or has ended meanwhile
                why = fault
            logger.warning("not in yet, next try in %g seconds: %s", pause, why)
            await asyncio.sleep(pause)
            pause = min(2 * pause, LONGEST_PAUSE)

    # ---- telling ----

    async def tell(self, who: str, *texts: str) -> None:
        """Tells a member something; who isn't there isn't told."""
        try:
            for text in texts:
                await self.member.do(f"tell {who} {text}")
        except RefusalError:
            pass

    async def announce(self, *texts: str) -> None:
        """Tells the channel, and the log."""
        for text in texts:
            logger.info("%s", text)
            if self.chosen.channel is not None:
                await self.tell(str(self.chosen.channel), text)

    # ---- hearing ----

    async def _hear(self) -> None:
        async for event in self.member.events():
            async with self._acting:
                try:
                    await self._take(event)
                except LinkError as fault:
                    self._complain(fault)

    async def _take(self, event: object) -> None:
        match event:
            case lines.Tell(who, text):
                await self.answers.to(who, text)
            case Ended(game):
                await self.round.ended(game, time.monotonic())
            case LinkLost() | CameAgain():
                self._looked = 0.0
                self.round.begin(time.monotonic())

    # ---- what is due ----

    async def _work(self) -> None:
        """Looks, until the evening is over."""
        is_over = False
        while not is_over:
            if self.member.is_in:
                async with self._acting:
                    try:
                        is_over = await self._look()
                    except (LinkError, OSError, BadFile) as fault:
                        self._complain(fault)
                        self._looked = time.monotonic() + CALM  # it is tried again, and not at once
            await asyncio.sleep(self.chosen.every if self.round.waits else CALM)

    def _complain(self, fault: Exception) -> None:
        """Says what goes wrong, once as long as it is the same."""
        if str(fault) != self._last_fault:
            logger.error("%s", fault)
        self._last_fault = str(fault)

    async def _look(self) -> bool:
        """Takes what is due; whether the evening is over."""
        now = time.monotonic()
        if now - self._looked >= CALM:
            self._looked = now
            self._present = {it.who for it in (await self.member.do("who")).all(lines.Player)}
        if self.ledger.evening.open:
            listed = (await self.member.do("games")).all(lines.GameListed)
            await self.round.look(self.member, listed, self._present, now)
        is_time = self.is_told_to_start or self.chosen.at is not None and datetime.now() >= self.chosen.at
        match due.step(self.ledger.evening, self.round.settled, is_time, self.chosen.rounds):
            case due.Step.START:
                await self._start()
            case due.Step.OPEN:
                await self._open(self.ledger.evening.open + 1)
            case due.Step.FINISH:
                await self._finish()
                return True
        return False

    async def _start(self) -> None:
        if self.chosen.pgn:
            games.begin(self.chosen.pgn)
        if self.chosen.is_seeded and self.chosen.archive:
            await self._seed(self.chosen.archive)
        await self.ledger.add("start")
        await self.announce(
            f"The round robin begins. {talk.terms_of(self.chosen.terms)}, "
            f"rounds: {len(self.ledger.evening.rounds)}.",
            *talk.joined(self.ledger.evening),
        )

    async def _seed(self, archive: Path) -> None:
        """Numbers who has joined by their ratings."""
        players = self.ledger.evening.players
        found = await asyncio.to_thread(seeds.standings, archive, self.chosen.terms, players)
        await self.ledger.number(list(found))
        await self.announce(f"By rating: {seeds.said(found)[0]}", *seeds.said(found)[1:])

    async def _open(self, number: int) -> None:
        await self.ledger.add(f"round {number}")
        self.round.settled.clear()
        self.round.adjourned.clear()
        self.round.begin(time.monotonic())
        evening = self.ledger.evening
        await self.announce(*(talk.table(evening) if number > 1 else ()), *talk.pairs(evening))
        for player in evening.players:
            if not evening.pair_of(player):
                await self.tell(player, f"Round {number}: you are free.")

    async def _finish(self) -> None:
        """Says the table, and writes the games."""
        evening = self.ledger.evening
        said = ["The round robin is over.", *talk.table(evening)]
        await self.announce(*said)
        for player in evening.players:
            await self.tell(player, *said)
        if self.chosen.pgn and self.chosen.archive:
            await self._write_games(self.chosen.pgn, self.chosen.archive)

    async def _write_games(self, file: Path, archive: Path) -> None:
        """Writes the games, once the archive has all that were watched, or won't have them. `Fault` where they can't be
        read or written."""
        evening, deadline = self.ledger.evening, time.monotonic() + ARCHIVE_SECONDS
        try:
            while not (are_there := games.are_there(file, archive, evening, self.round.seen)):
                if time.monotonic() >= deadline:
                    break
                await asyncio.sleep(CALM)
            count = games.write(file, archive, evening)
        except OSError as fault:
            raise Fault(f"the evening is over, and its games can't be written: {fault}") from fault
        logger.info("%d games stand in %s", count, file)
        if not are_there:
            logger.warning("the archive %s hasn't all games that were watched", archive)
