"""What members tell, and what they are answered."""

import asyncio
import time
from datetime import datetime

from ficsd_companions.names.known import Names

from . import words
from .messages import HANDLE, Box, Full
from .pools import Pool, named
from .rated import Ratings

PAUSE = 60.0  # seconds between two hints to one member, so that two programs don't talk without end
MOST_TEXT = 600  # characters of a message
WORDS = "rating [NAME], history [NAME], ladder POOL, message NAME TEXT, help"
POOLS = ", ".join(it.value for it in Pool)
NOT_KNOWN = "Who has an account isn't known at the moment, so nothing is kept. Try again later."


class Answers:
    """Answers by an archive's ratings. Where there is a box of messages, `names` says who has an account."""

    def __init__(self, ratings: Ratings, box: Box | None, names: Names | None) -> None:
        self.ratings, self.box, self.names = ratings, box, names
        self.hinted: dict[str, float] = {}

    async def to(self, who: str, text: str) -> list[str]:
        """Does what a member tells; the answer, a line each."""
        asked, _, rest = text.strip().partition(" ")
        more = rest.split()
        match asked.lower(), more:
            case "message", [to, *_] if len(more) > 1:
                return [await self._message(who, to, rest.strip().partition(" ")[2].strip())]
            case "message", _:
                return ["Type: message NAME TEXT"]
            case ("rating" | "history"), [] | [_]:
                return await self._of(asked.lower(), more[0] if more else who)
            case "ladder", [word]:
                return await self._ladder(word, who)
            case "ladder", _:
                return [f"Type: ladder POOL. The pools are {POOLS}."]
            case ("help" | "hello" | "hi"), _:
                return [f"I know these words: {WORDS}. The pools are {POOLS}."]
        return self._hint(who)

    def _hint(self, who: str) -> list[str]:
        now = time.monotonic()
        if now - self.hinted.get(who, now - PAUSE) < PAUSE:
            return []
        self.hinted = {it: moment for it, moment in self.hinted.items() if now - moment < PAUSE} | {who: now}
        return [f"I know these words: {WORDS}."]

    async def _of(self, asked: str, name: str) -> list[str]:
        if not HANDLE.fullmatch(name):
            return [f"{name[:17]} is no name."]
        await asyncio.to_thread(self.ratings.refresh)
        if asked == "rating":
            return words.rating(self.ratings, name)
        return words.history(self.ratings, self.ratings.index, name)

    async def _ladder(self, word: str, who: str) -> list[str]:
        pool = named(word)
        if not pool:
            return [f"The pools are {POOLS}."]
        await asyncio.to_thread(self.ratings.refresh)
        return words.ladder(self.ratings, pool, who)

    async def _message(self, who: str, to: str, text: str) -> str:
        """Keeps a message, and says so once it is kept."""
        if not self.box or not self.names:
            return "No messages are kept here."
        known = await asyncio.to_thread(self.names.known)
        if known is None:
            return NOT_KNOWN
        if who.casefold() not in known:
            return "Messages are for members with an account: type register and a password."
        if not HANDLE.fullmatch(to) or to.casefold() not in known:
            return f"{to[:17]} has no account."
        if len(text) > MOST_TEXT:
            return f"A message has at most {MOST_TEXT} characters."
        try:
            await asyncio.to_thread(self.box.keep, who, to, text, datetime.now())
        except Full:
            return f"Too many messages wait for {to}."
        except OSError as fault:
            return f"It can't be kept now, and {to} won't have it: {fault.strerror}."
        return f"It is kept, and told as {to} is here."
