"""How the bot gets games: challenges, seeks, and adjourned games that go on."""

import time
from collections.abc import Sequence
from dataclasses import dataclass

from ficslink import Refusal, RefusalError
from ficslink import Terms as GameTerms
from ficslink.lines import Challenge, SeekMade, Sought, Stored
from ficslink.member import Member

from .journal import say
from .talk import About
from .terms import Wanted
from .visitors import Visitors

GONE_OR_PLAYING = (Refusal.NO_SUCH_PLAYER, Refusal.PLAYING)  # of what may be asked later
LEAVING = "I am leaving."
AS_GIVER = "I play several games at a time, and so I have White."


@dataclass(frozen=True)
class Offers:
    """What it offers by itself: seeks and a challenge, and after how many seconds it takes the seeks of others."""

    seeks: Sequence[Wanted]
    challenge: tuple[str, Wanted] | None
    take: int | None


class Lobby:
    """What is done beside the boards. Each call of it comes behind the end of the one before."""

    def __init__(self, member: Member, about: About, offers: Offers, visitors: Visitors) -> None:
        self.member, self.terms, self.offers, self.visitors = member, about.terms, offers, visitors
        self.levels = about.levels
        self.welcomed: set[str] = set()  # those who were told of the levels
        self.is_giver = False  # whether it gives a simul, as who plays several games at a time has to
        self.is_closing = False
        self.seeking = False
        self.stored: list[Stored] | None = None  # the adjourned games; none where they have to be asked for
        self.asked: set[str] = set()  # those whom it has asked to resume
        self.since: dict[Sought, float] = {}  # the seeks of others, each with the moment when it was seen first

    def begin_anew(self) -> None:
        """It has come in: nothing that it did before stands."""
        self.is_giver = self.seeking = False
        self.stored = None
        self.asked.clear()

    def seated(self) -> None:
        """A game has begun: its seeks and requests are gone, and so may be an adjourned game."""
        self.seeking = False
        self.stored = None
        self.asked.clear()

    # ---- what others ask ----

    async def challenged(self, challenge: Challenge) -> None:
        """Accepts a challenge or turns it down."""
        who, terms = challenge.who, challenge.terms
        objection = self.objection(who, terms)
        if objection:
            say(f"{who} challenges, {terms}: declined: {objection}")
            await self.tried(f"decline {who}")
            await self.tried(f"tell {who} {objection}")
            return
        say(f"{who} challenges, {terms}: accepted")
        await self.make_room(wants_white=terms.colour == "white")
        if self.is_giver and terms.colour == "white":
            await self.tried(f"tell {who} {AS_GIVER}")
        if refusal := await self.tried(f"accept {who}"):
            say(f"{who}'s game doesn't begin: {refusal}")
        elif self.levels and who not in self.welcomed:
            self.welcomed.add(who)
            await self.tried(f"tell {who} This is level {self.levels.of(who)}. {self.levels.hint()}")

    def objection(self, who: str, terms: GameTerms) -> str | None:
        """Why a game with that member is turned down."""
        games = self.member.own_games
        if self.is_closing:
            return LEAVING
        if any(it.opponent == who for it in games):
            return "We play already."
        return self.terms.objection(terms.variant, terms.minutes, terms.increment, len(games))

    async def resume_asked(self, who: str) -> None:
        """Goes on with an adjourned game."""
        if self.is_closing or len(self.member.own_games) >= self.terms.most:
            await self.tried(f"tell {who} {LEAVING if self.is_closing else 'I have no time now; please ask later.'}")
            return
        await self.make_room(wants_white=False)
        if refusal := await self.tried(f"resume {who}"):
            say(f"{who} asks to resume: {refusal}")

    async def make_room(self, wants_white: bool) -> None:
        """Gives a simul from now on where it may play several games. A giver has White in each, so who alone is there
        and asks for White gets a game by itself."""
        if self.member.own_games:
            return
        if self.seeking:
            await self.tried("unseek")
            self.seeking = False
        if self.is_giver != (self.terms.most > 1 and not wants_white) and not await self.tried("simopen"):
            self.is_giver = not self.is_giver

    # ---- what it does by itself ----

    async def rest(self) -> None:
        """Where it has nothing to play: asks those with whom it has adjourned games, and seeks."""
        if self.member.own_games or self.is_closing:
            return
        if self.is_giver and not await self.tried("simopen"):
            self.is_giver = False
        await self.ask_to_resume()
        if self.offers.seeks and not self.seeking and not self.is_giver:
            answers = [await self.member.do(f"seek {it}") for it in self.offers.seeks]
            self.seeking = all(it.all(SeekMade) for it in answers)
        if self.offers.challenge:
            who, terms = self.offers.challenge
            if self.visitors.is_there(who):
                await self.tried(f"match {who} {terms}")

    async def take_seeks(self) -> None:
        """Takes the seeks that its words allow, where nobody else has taken them for long enough."""
        if self.offers.take is None or self.is_closing or self.member.own_games and not self.is_giver:
            return
        now, sought = time.monotonic(), (await self.member.do("sought")).all(Sought)
        self.since = {it: self.since.get(it, now) for it in sought if it.who != self.member.name}
        for seek, since in self.since.items():
            if now - since >= self.offers.take and not self.objection(seek.who, seek.terms):
                say(f"{seek.who} seeks, {seek.terms}: taken")
                await self.make_room(wants_white=seek.terms.colour == "white")
                await self.tried(f"play {seek.number}")
                return

    async def ask_to_resume(self) -> None:
        """Asks each who is there and has an adjourned game with it, once as long as they stay."""
        if self.stored is None:
            self.stored = (await self.member.do("stored")).all(Stored)
        others = {it.black if it.white == self.member.name else it.white for it in self.stored}
        self.asked &= self.visitors.players
        for who in sorted(others & self.visitors.players - self.asked):
            if self.member.own_games:
                return
            self.asked.add(who)
            refusal = await self.tried(f"resume {who}")
            if refusal and refusal.refusal not in GONE_OR_PLAYING:
                say(f"{who} isn't asked to resume: {refusal}")

    async def tried(self, line: str) -> RefusalError | None:
        """Sends a line; its refusal, if it is refused."""
        try:
            await self.member.do(line)
        except RefusalError as refusal:
            return refusal
        return None
