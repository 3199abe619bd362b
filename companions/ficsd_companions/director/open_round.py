"""The open round at its boards: who is called, who plays, and what becomes of each pair.

What is here is gone with the program, and made anew from the file: the time for which one is waited for begins again.
"""

import logging
from collections.abc import Awaitable, Callable, Collection

from ficslink.game import Game
from ficslink.lines import GameListed
from ficslink.member import Member

from . import talk
from .due import Verdict, Waiting, verdict
from .evening import SCORES, Pair
from .ledger import Ledger, Refused
from .options import Chosen

logger = logging.getLogger("fics_director")
Tell = Callable[..., Awaitable[None]]
ADJOURNED = "adjourned"


class OpenRound:
    """The pairs of the open round that have no result."""

    def __init__(self, chosen: Chosen, ledger: Ledger, tell: Tell, announce: Tell) -> None:
        self.chosen, self.ledger, self.tell, self.announce = chosen, ledger, tell, announce
        self.waiting: dict[Pair, Waiting] = {}
        self.uncalled: set[Pair] = set()
        self.playing: dict[Pair, int] = {}  # the games that are watched
        self.others: dict[int, Pair] = {}  # games of a pair that don't count
        self.adjourned: set[Pair] = set()
        self.settled: set[Pair] = set()  # pairs that get no result
        self.noted: dict[Pair, str] = {}  # results that aren't in the file yet
        self.seen: dict[Pair, str] = {}  # the results of games that were watched to their ends, of all rounds

    def begin(self, now: float) -> None:
        """Nobody is known to play, and all are waited for from now on."""
        self.playing.clear()
        self.others.clear()
        self.waiting = {it: Waiting(now) for it in self.ledger.evening.without_result() if it not in self.settled}
        self.uncalled = set(self.waiting)

    @property
    def waits(self) -> bool:
        """Whether a game may begin at any moment."""
        return any(it not in self.playing for it in self.waiting)

    # ---- a look ----

    async def look(self, member: Member, listed: Collection[GameListed], present: Collection[str], now: float) -> None:
        """Takes what is so now: the games that are listed, and who is in the hall."""
        await self._write()
        for pair in [it for it in self.waiting if it in self.ledger.evening.results]:
            self._forget(pair)
        await self._see(member, listed, now)
        here = {it for pair in self.waiting for it in pair.players if it.lower() in {one.lower() for one in present}}
        for pair, waiting in list(self.waiting.items()):
            if pair in self.playing or pair in self.others.values() or pair in self.noted:
                continue
            if pair in self.uncalled:
                self.uncalled.discard(pair)
                await self._call(pair)
            await self._judge(pair, waiting, here, now)

    async def _see(self, member: Member, listed: Collection[GameListed], now: float) -> None:
        """Looks on at the games of the pairs, and speaks of those that aren't as paired."""
        running = {it.game for it in listed}
        for number in [it for it in self.others if it not in running]:
            freed = self.others.pop(number)
            if freed in self.waiting:
                self.waiting[freed] = Waiting(now)
                self.uncalled.add(freed)
        for game in listed:
            pair = next((it for it in self.waiting if it.is_of(game.white, game.black)), None)
            if not pair or game.game in self.others or pair in self.playing or pair in self.noted:
                continue
            if not self._is_as_paired(game, pair):
                self.others[game.game] = pair
                for player in pair.players:
                    await self.tell(player, *talk.not_as_paired(pair, player, self.chosen.terms))
                await self.announce(f"{game.white} and {game.black} play {game.terms}, which isn't as they are paired.")
            elif await member.watch(game.game):
                self.playing[pair] = game.game
            else:
                await self._missed(pair, now)

    def _is_as_paired(self, game: GameListed, pair: Pair) -> bool:
        wanted, terms = self.chosen.terms, game.terms
        return game.white.lower() == pair.white.lower() and (terms.minutes, terms.increment, terms.variant) == (
            wanted.minutes,
            wanted.increment,
            wanted.variant,
        )

    async def _missed(self, pair: Pair, now: float) -> None:
        self.waiting[pair] = Waiting(now)
        self.uncalled.add(pair)
        for player in pair.players:
            await self.tell(player, "I came too late to see how your game ended: play it again, or ask who directs.")

    async def _call(self, pair: Pair) -> None:
        """Tells both what to type."""
        for player in pair.players:
            if pair in self.adjourned:
                await self.tell(player, *talk.resume(pair, player))
            else:
                await self.tell(player, *talk.call(self.ledger.evening.open, pair, player, self.chosen.terms))

    # ---- what becomes of a pair ----

    async def _judge(self, pair: Pair, waiting: Waiting, here: Collection[str], now: float) -> None:
        found = verdict(pair, waiting, here, now, self.chosen.absent, self.chosen.both_away)
        if found is Verdict.WAIT:
            return
        if found is Verdict.AGAIN:
            self.waiting[pair] = Waiting(now, was_told_again=True)
            await self._call(pair)
        elif found is Verdict.NONE:
            self.settled.add(pair)
            self._forget(pair)
            await self.announce(f"{pair.white} - {pair.black} isn't played, and has no result.")
        else:
            await self.note(pair, found.value, "absent")

    async def ended(self, game: Game, now: float) -> None:
        """A game that was watched is over."""
        pair = next(
            (it for it, number in self.playing.items() if number == game.number and it.is_of(game.white, game.black)),
            None,
        )
        if not pair:
            return
        del self.playing[pair]
        if pair in self.ledger.evening.results:
            self._forget(pair)
        elif game.result in SCORES:
            self.seen[pair] = game.result
            await self.note(pair, game.result, game.reason)
        else:
            if game.reason == ADJOURNED:
                self.adjourned.add(pair)
            self.waiting[pair] = Waiting(now)
            self.uncalled.add(pair)
            await self.announce(f"{pair.white} - {pair.black}: {game.reason}")

    async def note(self, pair: Pair, score: str, reason: str) -> None:
        """A pair has its result, which is written into the file before anybody is told."""
        self.noted[pair] = score
        await self._write()
        said = f"{pair.white} - {pair.black} {score} ({reason})"
        await self.announce(said)
        for player in pair.players:
            await self.tell(player, said)

    async def _write(self) -> None:
        """Writes the results that aren't in the file. One that can't be written stays noted."""
        for pair, score in list(self.noted.items()):
            try:
                await self.ledger.add(f"result {pair.white} {pair.black} {score}")
            except Refused:
                pass  # who directs has ruled meanwhile
            except OSError as fault:
                logger.error("%s - %s %s can't be written, and is tried again: %s", *pair.players, score, fault)
                return
            del self.noted[pair]
            self._forget(pair)

    def ruled(self, white: str, black: str) -> None:
        """Who directs has ruled on a pair: what was noted of it is gone."""
        for pair in [it for it in (*self.waiting, *self.settled) if it.players == (white, black)]:
            self.noted.pop(pair, None)
            self.settled.discard(pair)
            self._forget(pair)

    def _forget(self, pair: Pair) -> None:
        """Nothing is wanted of a pair any more."""
        self.waiting.pop(pair, None)
        self.playing.pop(pair, None)
        self.uncalled.discard(pair)
        self.adjourned.discard(pair)
