"""The scribe at work: looks on at all that runs, by as many links as that takes, and keeps what it is told."""

import asyncio
import logging
from datetime import datetime, timedelta
from functools import partial
from itertools import groupby

from ficslink.board import Board
from ficslink.errors import LinkError, RefusalError
from ficslink.refusals import WAITABLE
from ficslink.line import Line
from ficslink.lines import GameListed, GameOver

from ficsd_companions.cli.words import Address

from .archive import Archive
from .disk import Disk
from .journal import Journal
from .watcher import Watcher, desk_of

logger = logging.getLogger("fics_scribe")
FIRST_PAUSE, LONGEST_PAUSE = 1.0, 60.0  # seconds, before another try to go in
LOST_DAYS = 30  # after which a game that was lost sight of is written without an end
GIVE_UP_EVERY = 3600.0


def who_and_time(board: Board) -> tuple[str, str, int, int]:
    """What tells a game from one that the same two play at the same desk on other terms."""
    return board.white, board.black, board.minutes, board.increment


class Fault(Exception):
    """What ends the scribe, and goes on to do so."""


class NotKept(Exception):
    """The scribe has ended, and the disk hadn't taken all that it knew."""


class Scribe:
    """Keeps the games of a server in an archive."""

    def __init__(self, server: Address, name: str, password: str | None, archive: Archive, every: float) -> None:
        self.server, self.name, self.password = server, name, password
        self.archive, self.disk, self.every = archive, Disk(archive), every
        self.watchers: list[Watcher] = []
        self.listed: dict[int, list[GameListed]] = {}  # of each desk that is in use
        self.sittings: dict[int, Journal] = {}
        self.early: dict[int, list[Line]] = {}  # what was told of a desk before it was sure that its game runs
        self.seen: set[int] = set()  # the desks at which it surely looks on
        self.ended: dict[int, Journal] = {}  # the last sitting that ended at a desk
        self.guest: asyncio.Task[None] | None = None  # who comes beside the links that there are
        self.guest_pause = FIRST_PAUSE
        self.observing: dict[int, asyncio.Task[None]] = {}

    # ---- what is told ----

    def told(self, line: Line) -> None:
        """Takes a line of a game."""
        desk = desk_of(getattr(line, "game", 0))
        known = self.sittings.get(desk)
        if known:
            self.hear(desk, known, line)
        else:
            self.early.setdefault(desk, []).append(line)
            self.begin(desk)
        if isinstance(line, GameOver):
            self.seen.discard(desk)

    def shown(self, desk: int, board: Line) -> None:
        """Who is shown the board of a desk looked on there no longer: what was told before is of a game that had
        ended."""
        early = self.early.get(desk, [])
        if place := next((at for at, it in enumerate(early) if it is board), 0):
            self.early[desk] = early[place:]

    def begin(self, desk: int) -> None:
        """Begins a sitting once it is sure that its game runs, or ran until one was told of its end, each of its boards
        was told and its terms are listed."""
        lines, games = self.early.get(desk, []), self.listed.get(desk, [])
        if desk not in self.seen and not any(isinstance(it, GameOver) for it in lines):
            return
        asked = {(it.white, it.black, it.terms.minutes, it.terms.increment) for it in games}
        # what stands before is of a game that was there before, and had ended
        lines = lines[
            max(
                (at for at, it in enumerate(lines, 1) if isinstance(it, Board) and who_and_time(it) not in asked),
                default=0,
            ) :
        ]
        if not games or {who_and_time(it) for it in lines if isinstance(it, Board)} != asked:
            return
        del self.early[desk]
        firsts = {it.game: it for it in reversed(lines) if isinstance(it, Board)}
        known = self.archive.begin(games, list(firsts.values()), datetime.now())
        for line in lines:
            known.sitting.hear(line, datetime.now())
        self.disk.settle(known, known.begin)
        self.sittings[desk] = known
        self.look_at_end(desk, known)

    def hear(self, desk: int, known: Journal, line: Line) -> None:
        if isinstance(line, Board) and not self.is_of(known, line):
            self.lose(desk)  # somebody else sits there by now
            self.told(line)
            return
        known.sitting.hear(line, datetime.now())
        self.disk.settle(known, known.keep)
        if isinstance(line, GameOver):
            self.look_at_end(desk, known)

    def is_of(self, known: Journal, board: Board) -> bool:
        record = known.sitting.records.get(board.game)
        return record is not None and (record.white, record.black) == (board.white, board.black)

    def look_at_end(self, desk: int, known: Journal) -> None:
        """Writes a sitting that is over."""
        if not known.sitting.is_over:
            return
        del self.sittings[desk]
        if self.is_told_again(desk, known):
            self.disk.settle(known, known.remove)
            return
        self.ended[desk] = known
        self.write(known)

    def is_told_again(self, desk: int, known: Journal) -> bool:
        """Whether it is the end, told once more, of the sitting that was last there."""
        before = self.ended.get(desk)
        if not before or known.sitting.has_half_moves:
            return False
        last = [(it.white, it.black, it.last, it.reason) for it in before.sitting.records.values()]
        return last == [(it.white, it.black, it.last, it.reason) for it in known.sitting.records.values()]

    def write(self, known: Journal) -> None:
        """Has a sitting that is over written, or kept where it was adjourned."""
        if known.sitting.is_adjourned:
            self.disk.settle(known, partial(self.archive.finish, known))
        else:
            self.disk.write(known)

    def lose(self, desk: int) -> None:
        """Loses sight of a sitting. Nothing is kept of one without a half-move."""
        known = self.sittings.pop(desk, None)
        if known and known.sitting.has_half_moves:
            self.wait(known)
        elif known:
            self.disk.settle(known, known.remove)

    def wait(self, known: Journal) -> None:
        """Has a sitting wait until it is seen again."""
        self.disk.settle(known, partial(self.archive.wait, known))

    # ---- at work ----

    async def run(self) -> None:
        """Works until it is cancelled. `Fault` where it can't go in, as for a wrong password; `NotKept` where the disk
        is full at its end."""
        self.disk.write(*self.archive.open())
        given_up = 0.0
        loop = asyncio.get_running_loop()
        try:
            while True:
                if loop.time() >= given_up:
                    self.disk.write(*self.archive.given_up(datetime.now() - timedelta(days=LOST_DAYS)))
                    given_up = loop.time() + GIVE_UP_EVERY
                await self.look()
                self.disk.go_on()
                await asyncio.sleep(self.every)
        finally:
            for task in (*self.observing.values(), *([self.guest] if self.guest else [])):
                task.cancel()
            for watcher in self.watchers:
                await watcher.leave()
            if count := await self.disk.end(self.sittings.values()):
                raise NotKept(f"LOST: of {count} games the disk hasn't what was told since it takes nothing")

    async def look(self) -> None:
        """Asks which games there are, and looks on at those that it doesn't see."""
        self.watchers = [it for it in self.watchers if it.is_in or self.drop(it)]
        try:
            first = self.watchers[0] if self.watchers else await self.come()
            games = await first.games()
            self.take_list(games)
            unseen, room = self.unseen(), sum(it.room_left for it in self.watchers)
            for desk in unseen[:room]:
                self.observing[desk] = asyncio.create_task(self.observe(desk, self.listed[desk][0].game))
            if unseen[room:] and (not self.guest or self.guest.done()):
                self.guest = asyncio.create_task(self.have_guest())
        except LinkError as fault:
            logger.warning("the link to the server is lost: %s", fault)

    def take_list(self, games: list[GameListed]) -> None:
        by_desk = {
            desk: list(its) for desk, its in groupby(sorted(games, key=lambda it: it.game), lambda it: desk_of(it.game))
        }
        self.listed = by_desk
        for desk in [it for it in self.early if it not in by_desk]:
            del self.early[desk]
        for desk in list(self.early):
            self.begin(desk)
        self.ended = {desk: it for desk, it in self.ended.items() if desk in by_desk}
        for it in self.archive.left:
            if not any(it.sitting.is_of(its) for its in by_desk.values()):
                self.wait(it)
        self.archive.left = [it for it in self.archive.left if it not in self.archive.waits]

    def unseen(self) -> list[int]:
        seen = set(self.observing).union(*(it.desks for it in self.watchers))
        return [it for it in self.listed if it not in seen]

    async def have_guest(self) -> None:
        """Has a guest come beside the links that there are, which look on meanwhile; where it can't, waits a while."""
        try:
            await self.enter("guest")
            self.guest_pause = FIRST_PAUSE
        except LinkError as fault:
            logger.warning("no further link yet, next try in %g seconds: %s", self.guest_pause, fault)
            await asyncio.sleep(self.guest_pause)
            self.guest_pause = min(2 * self.guest_pause, LONGEST_PAUSE)

    async def observe(self, desk: int, game: int) -> None:
        """Looks on at a desk, where there is room. The next look doesn't wait for it."""
        watcher = next((it for it in self.watchers if it.room_left), None)
        try:
            if watcher and not await watcher.observe(game):
                self.leave_out(desk)
            elif watcher and desk in watcher.desks:  # else the game's end was told behind that answer
                self.seen.add(desk)
                self.begin(desk)
        except LinkError as fault:
            logger.warning("game %d isn't seen: %s", game, fault)
        finally:
            del self.observing[desk]

    def leave_out(self, desk: int) -> None:
        """Lets go what was told of a desk at which it doesn't look on: its game had ended before, or the link is
        lost."""
        self.seen.discard(desk)
        self.early.pop(desk, None)
        self.lose(desk)

    def drop(self, watcher: Watcher) -> bool:
        """Loses what a watcher saw whose link is gone."""
        logger.warning("a link is lost: %s", watcher.why)
        for desk in watcher.desks:
            self.leave_out(desk)
        return False

    async def come(self) -> Watcher:
        """Goes in by the first link, as often as it takes while waiting may help."""
        pause = FIRST_PAUSE
        while True:
            try:
                return await self.enter(self.name)
            except RefusalError as refusal:
                if refusal.refusal not in WAITABLE:
                    raise Fault(f"the server refuses {self.name}: {refusal}") from refusal
                why: LinkError = refusal
            except LinkError as fault:
                why = fault
            logger.warning("not in yet, next try in %g seconds: %s", pause, why)
            await asyncio.sleep(pause)
            pause = min(2 * pause, LONGEST_PAUSE)

    async def enter(self, name: str) -> Watcher:
        watcher = Watcher(self.told, self.shown)
        await watcher.come(*self.server, name, self.password)
        self.watchers.append(watcher)
        return watcher
