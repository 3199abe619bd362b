"""The bot as a whole: it comes in, hands each event to whom it concerns, and leaves in order."""

import asyncio
import signal
from collections.abc import Awaitable, Callable
from functools import partial

from ficslink import LinkError, PasswordWanted, Refusal, RefusalError
from ficslink.events import Began, CameAgain, Ended, Event, LinkLost, Moved, Offered
from ficslink.game import OWN, Game
from ficslink.lines import Challenge, ResumeAsked, Tell
from ficslink.member import Member

from .journal import say
from .lobby import Lobby, Offers
from .memory import Memory
from .options import Chosen
from .table import Table, cause
from .talk import About, Answers
from .thinker import Brain
from .visitors import Visitors

LEFT, LOST, NO_NAME = 0, 1, 3  # statuses
TICK, LOOK = 0.5, 3.0  # seconds between two looks at the clocks, and at the hall
ADJOURN_SECONDS = 1.0  # for opponents to agree to adjourn; those games are adjourned by leaving too


class CannotCome(Exception):
    """It can't come in: why, and the status with which the bot ends."""

    def __init__(self, why: str, status: int) -> None:
        self.status = status
        super().__init__(why)


class Host:
    """The bot, once it is in."""

    def __init__(self, member: Member, chosen: Chosen, brain: Brain, about: About, memory: Memory) -> None:
        self.member, self.chosen, self.brain, self.memory = member, chosen, brain, memory
        self.visitors = Visitors(member, chosen.hall, chosen.greet)
        offers = Offers(chosen.seek, chosen.challenge, chosen.take)
        self.lobby = Lobby(member, about, offers, self.visitors)
        self.levels = about.levels
        self.answers = Answers(about)
        self.tables: dict[Game, Table] = {}
        self.errands: asyncio.Queue[Callable[[], Awaitable[None]]] = asyncio.Queue()  # of the lobby, one after another
        self.ending: set[asyncio.Task[None]] = set()  # engines of games that are over
        self.played = 0
        self.lost: asyncio.TimerHandle | None = None
        self.status: asyncio.Future[int] = asyncio.get_running_loop().create_future()

    async def run(self) -> int:
        """Plays until it is told to leave, or is lost; its status."""
        tasks = [asyncio.create_task(it()) for it in (self.take, self.tick, self.look, self.do_errands)]
        for it in tasks:
            it.add_done_callback(self.failed)
        try:
            return await self.status
        finally:
            for it in tasks:
                it.cancel()
            await self.member.leave()
            self.leave_tables()
            await asyncio.gather(*tasks, *self.ending, return_exceptions=True)

    def failed(self, task: asyncio.Task[None]) -> None:
        """Ends the bot where one of its tasks has ended by a fault."""
        if not task.cancelled() and (fault := task.exception()) and not self.status.done():
            self.status.set_exception(fault)

    def end(self, status: int) -> None:
        """Ends the bot."""
        if not self.status.done():
            self.status.set_result(status)

    # ---- what happens ----

    async def take(self) -> None:
        """Takes the events."""
        try:
            async for event in self.member.events():
                try:
                    await self.happened(event)
                except LinkError as fault:
                    say(f"{type(event).__name__} isn't dealt with: {fault}")
        except LinkError as fault:
            say(f"it can't come again: {fault}")
        self.end(LOST)

    async def happened(self, event: Event) -> None:
        """Deals with an event."""
        if isinstance(event, (Began, Moved)):
            self.board_came(event.game, isinstance(event, Began))
        elif isinstance(event, Offered):
            if event.game in self.tables and event.offer.who != self.member.name:
                await self.tables[event.game].answer(event.offer, self.lobby.is_closing)
        elif isinstance(event, Ended):
            self.ended(event.game)
        elif isinstance(event, Challenge):
            self.errands.put_nowait(partial(self.lobby.challenged, event))
        elif isinstance(event, ResumeAsked):
            self.errands.put_nowait(partial(self.lobby.resume_asked, event.who))
        elif isinstance(event, Tell):
            await self.told(event)
        elif isinstance(event, LinkLost):
            self.link_lost(event.why)
        elif isinstance(event, CameAgain):
            self.came_again()

    def board_came(self, game: Game, is_new: bool) -> None:
        """A board of a game has come."""
        if is_new and game.role == OWN:
            self.lobby.seated()
            level = self.levels.of(game.opponent) if self.levels else None
            self.tables[game] = Table(self.member, self.brain, self.memory, game, level)
            say(f"{self.tables[game]} begins: {game.terms}, with {game.colour}")
        if game in self.tables:
            self.tables[game].moved()

    def ended(self, game: Game) -> None:
        """A game is over."""
        table = self.tables.pop(game, None)
        if table:
            say(f"{table}: {game.reason}, {game.result}")
            self.end_table(table)
            self.lobby.stored = None
            self.errands.put_nowait(self.lobby.rest)
            self.count(table)

    def count(self, table: Table) -> None:
        """Leaves behind so many games as was chosen."""
        self.played += not table.may_go_on
        if self.played == self.chosen.count and not self.lobby.is_closing:
            self.told_to_leave()

    def end_table(self, table: Table) -> None:
        """Ends a game's engine, beside all else."""
        task = asyncio.create_task(table.leave())
        self.ending.add(task)
        task.add_done_callback(self.ending.discard)

    def leave_tables(self) -> None:
        """All games are gone."""
        for table in self.tables.values():
            self.end_table(table)
        self.tables.clear()

    async def told(self, line: Tell) -> None:
        """Answers what a member says."""
        for text in self.answers.to(line.who, line.text, len(self.tables)):
            await self.lobby.tried(f"tell {line.who} {text}")

    def link_lost(self, why: str) -> None:
        """The games of this link are gone. The library comes again; the bot ends where that takes too long."""
        say(f"the link is lost: {why}")
        self.leave_tables()
        if self.lobby.is_closing:
            self.end(LEFT)
        self.lost = asyncio.get_running_loop().call_later(self.chosen.patience, self.give_up)

    def give_up(self) -> None:
        """The server didn't come back."""
        say(f"the server isn't back after {self.chosen.patience:g} seconds")
        self.end(LOST)

    def came_again(self) -> None:
        """It is in again."""
        say(f"in again, as {self.member.name}")
        if self.lost:
            self.lost.cancel()
        self.lobby.begin_anew()
        self.errands.put_nowait(self.lobby.rest)

    # ---- what is done all the time ----

    async def tick(self) -> None:
        """Looks at the clocks of all games."""
        while True:
            await asyncio.sleep(TICK)
            for table in list(self.tables.values()):
                await self.guarded(table.tick)

    async def look(self) -> None:
        """Looks at the hall, and has the lobby do what it does by itself."""
        while True:
            self.errands.put_nowait(self.look_once)
            await asyncio.sleep(LOOK)

    async def look_once(self) -> None:
        """Looks at the hall where that serves for something."""
        if self.member.is_in:
            if self.chosen.hall or self.chosen.greet or self.chosen.challenge or self.lobby.stored != []:
                await self.visitors.look()
            await self.lobby.rest()
            await self.lobby.take_seeks()

    async def do_errands(self) -> None:
        """Does what is to be done in the lobby, one after another."""
        while True:
            await self.guarded(await self.errands.get())

    async def guarded(self, errand: Callable[[], Awaitable[None]]) -> None:
        """Does something for which the link may be gone."""
        try:
            await errand()
        except LinkError as fault:
            say(f"not done: {fault}")

    # ---- leaving ----

    def told_to_leave(self) -> None:
        """A signal has come: leaves in order, and at the second one at once."""
        if self.lobby.is_closing:
            self.end(LEFT)
        else:
            self.lobby.is_closing = True
            say("told to leave: no new games")
            asyncio.create_task(self.close()).add_done_callback(self.failed)

    async def close(self) -> None:
        """Adjourns what can be adjourned, lets the other games go on for a while, and leaves."""
        await self.guarded(self.take_back_seeks)
        open_ended = [it for it in list(self.tables.values()) if not await self.is_adjourned_by_leaving(it)]
        deadline = asyncio.get_running_loop().time() + (self.chosen.grace if open_ended else ADJOURN_SECONDS)
        if open_ended:
            say(f"{len(open_ended)} games that can't be adjourned have {self.chosen.grace:g} seconds to end")
        while self.tables and asyncio.get_running_loop().time() < deadline:
            if open_ended and not any(it.game in self.tables for it in open_ended):
                break
            await asyncio.sleep(0.1)
        self.end(LEFT)

    async def take_back_seeks(self) -> None:
        """Takes its seeks back."""
        if self.lobby.seeking:
            await self.lobby.tried("unseek")

    async def is_adjourned_by_leaving(self, table: Table) -> bool:
        """Offers to adjourn a game; whether it is one that can be."""
        try:
            await table.tell("I am leaving, and offer to adjourn.")
            return cause(await table.send("adjourn")) is not Refusal.NOT_REGISTERED
        except LinkError:
            return True


async def come_in(chosen: Chosen, password: str | None) -> Member:
    """Comes in, and makes an account of the name where there is none and a password was given."""
    where = chosen.server
    try:
        member = await Member.enter(*where, chosen.name, password, settings=("set shout 0",))
        if password and not member.is_registered:
            await member.do(f"register {password}")
            say(f"{member.name} has an account now")
    except PasswordWanted as fault:
        raise CannotCome(f"{chosen.name} has an account at {where}: --password FILE", NO_NAME) from fault
    except RefusalError as refusal:
        if refusal.refusal is Refusal.HALL_FULL:
            raise CannotCome(f"the server at {where} is full: {refusal}", LOST) from refusal
        why = "somebody is there under this name" if refusal.refusal is Refusal.HANDLE_TAKEN else str(refusal)
        raise CannotCome(f"{chosen.name} can't come in at {where}: {why}", NO_NAME) from refusal
    except LinkError as fault:
        raise CannotCome(str(fault), LOST) from fault
    return member


async def play(chosen: Chosen, brain: Brain, about: About, password: str | None) -> int:
    """Comes in, plays, and leaves; its status."""
    memory = Memory(chosen.games)
    memory.load()
    member = await come_in(chosen, password)
    host = Host(member, chosen, brain, about, memory)
    for number in (signal.SIGTERM, signal.SIGINT):
        asyncio.get_running_loop().add_signal_handler(number, host.told_to_leave)
    say(f"in as {member.name}; {about.engine} plays {about.terms}")
    print("ready", flush=True)
    return await host.run()
