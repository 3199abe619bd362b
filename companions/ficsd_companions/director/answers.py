"""What members tell the director, and its answers."""

import time
from datetime import datetime, timedelta
from typing import TYPE_CHECKING

from . import talk
from .evening import SCORES, BadFile
from .ledger import Refused

if TYPE_CHECKING:
    from .director import Director

PAUSE = 60.0  # seconds between two hints to one member, so that two programs don't talk without end


class Answers:
    """The answers of a director."""

    def __init__(self, director: "Director") -> None:
        self.director = director
        self.hinted: dict[str, float] = {}

    async def to(self, who: str, text: str) -> None:
        """Does what a member tells, and answers."""
        words = text.strip().rstrip("?!.").split()
        is_chief = who.lower() in self.director.chosen.chief
        match [it.lower() for it in words]:
            case ["join"]:
                said = [await self._join(who)]
            case ["table"]:
                said = talk.table(self.director.ledger.evening)
            case ["round"]:
                said = self._round(who)
            case ["when"]:
                said = [self._when(who)]
            case ["help"] | ["hello"] | ["hi"]:
                said = talk.help_for(self.director.member.name, is_chief)
            case ["start"]:
                said = [self._start(is_chief)]
            case ["result", white, black, score]:
                said = [await self._rule(is_chief, white, black, score)]
            case _:
                said = self._hint(who)
        await self.director.tell(who, *said)

    def _hint(self, who: str) -> list[str]:
        now = time.monotonic()
        if now - self.hinted.get(who, now - PAUSE) < PAUSE:
            return []
        self.hinted = {it: moment for it, moment in self.hinted.items() if now - moment < PAUSE} | {who: now}
        return [f"I know these words: {talk.WORDS}."]

    async def _join(self, who: str) -> str:
        ledger = self.director.ledger
        try:
            await ledger.add(f"join {who}")
        except Refused as refused:
            reasons = {
                "HandleTaken": "You have joined.",
                "TourneyStarted": "It has begun, and nobody joins any more.",
                "TourneyFull": "64 have joined, and that is all.",
            }
            return reasons.get(refused.word, str(refused))
        except (OSError, BadFile) as fault:
            return f"That can't be kept now: {fault}"
        count = len(ledger.evening.players)
        await self.director.announce(f"{who} joins; {count} {'has' if count == 1 else 'have'} joined.")
        return f"You have joined. {self._begins()}"

    def _begins(self) -> str:
        at = self.director.chosen.at
        return f"It begins at {at:%Y-%m-%d %H:%M}." if at else "It begins when who directs says so."

    def _round(self, who: str) -> list[str]:
        evening = self.director.ledger.evening
        said = talk.pairs(evening)
        pair = evening.pair_of(who)
        if pair and pair in self.director.round.adjourned:
            return said + talk.resume(pair, evening.named(who) or who)
        if pair and pair in self.director.round.waiting and pair not in self.director.round.playing:
            return said + talk.call(evening.open, pair, evening.named(who) or who, self.director.chosen.terms)
        return said

    def _when(self, who: str) -> str:
        director, evening = self.director, self.director.ledger.evening
        if not evening.has_started:
            return f"{self._begins()} It is {datetime.now():%H:%M}."
        pair = evening.pair_of(who)
        waiting = director.round.waiting.get(pair) if pair else None
        if not pair or not waiting or pair in director.round.playing:
            return f"Round {evening.open} of {len(evening.rounds)} is open. It is {datetime.now():%H:%M}."
        left = waiting.since + director.chosen.absent - time.monotonic()
        return (
            f"Your game with {pair.other(evening.named(who) or who)} is wanted now; who isn't there at "
            f"{datetime.now() + timedelta(seconds=left):%H:%M:%S} has lost."
        )

    def _start(self, is_chief: bool) -> str:
        if not is_chief:
            return "That is for who directs."
        if self.director.ledger.evening.has_started:
            return "It has begun."
        if len(self.director.ledger.evening.players) < 2:
            return "Two at least have to join before."
        self.director.is_told_to_start = True
        return "It begins."

    async def _rule(self, is_chief: bool, white: str, black: str, score: str) -> str:
        if not is_chief:
            return "That is for who directs."
        director = self.director
        white, black = (director.ledger.evening.named(it) or it for it in (white, black))
        if score not in SCORES or not (white.isalpha() and black.isalpha()):
            return "Type: result WHITE BLACK 1-0, or 0-1, or 1/2-1/2"
        try:
            await director.ledger.rule(white, black, score)
        except Refused as refused:
            reasons = {
                "NotPaired": f"No round has {white} with White against {black}.",
                "TourneyNotStarted": "It hasn't begun.",
            }
            return reasons.get(refused.word, str(refused))
        except (OSError, BadFile) as fault:
            return f"That can't be kept now: {fault}"
        director.round.ruled(white, black)
        await director.announce(f"{white} - {black} {score}, as who directs says.")
        return "Ok."
