"""What one member may say to others: far less than these can read, however many speak."""

import math
import re

from .addresses import Address
from .budget import Budget

A_SECOND, AT_ONCE = 0.5, 10  # lines of one member; its address has a budget of its own
# the server's words by which others are told or asked something, each with its least beginning that may stand for it
TALK = {"tell": "t", "shout": "sh", "kibitz": "k", "ptell": "pt"}
ASKS = {"match": "m", "seek": "see", "partner": "par", "resume": "resu"}
ALIAS = re.compile(r"(?i:al(?:i(?:as?)?)?) +([a-z]{1,15}) +(\S+)")
MOST_ALIASES = 64
TOO_MUCH = "Not said, since that is more than others can read: another line in {} seconds."


def is_one_of(word: str, words: dict[str, str]) -> bool:
    return any(name.startswith(word) and word.startswith(least) for name, least in words.items())


class Saying:
    """One member, by the lines that it sends to the server."""

    def __init__(self, address: Address | None = None) -> None:
        self.address = address
        self.talk, self.asks = Budget(A_SECOND, AT_ONCE), Budget(A_SECOND, AT_ONCE)
        self.aliases: dict[str, str] = {}  # for which first words they stand

    def refusal(self, line: str) -> str | None:
        """Why a line isn't said now; none where it is, and counts as said."""
        seconds = self.seconds(line.strip(" "))
        return TOO_MUCH.format(seconds) if seconds else None

    def seconds(self, line: str) -> int:
        """In how many seconds a line may be said."""
        if alias := ALIAS.match(line):
            self.learn(alias[1], alias[2])
        typed = line.partition(" ")[0]
        word = self.aliases.get(typed, typed).lower()
        if is_one_of(word, TALK) or word.startswith("$"):  # an alias may begin with whatever is typed behind it
            return self.take(self.talk)
        return self.take(self.asks) if is_one_of(word, ASKS) else 0

    def learn(self, name: str, word: str) -> None:
        """Takes an alias, whether the server does or not."""
        if name in self.aliases or len(self.aliases) < MOST_ALIASES:
            self.aliases[name] = word

    def take(self, own: Budget) -> int:
        """Takes a line of all budgets that count it, or tells in how many seconds they have one."""
        budgets = [own, *([self.address.talk] if self.address else [])]
        wait = max(it.wait() for it in budgets)
        if not wait:
            for it in budgets:
                it.take()
        return math.ceil(wait)
