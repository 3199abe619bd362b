"""The messages for one tab: those that it wasn't told, and the last ones that it was, for who comes back for them."""

from collections import deque
from collections.abc import Iterable
from itertools import islice

MOST, MOST_BYTES = 512, 131072


class Kept:
    """Messages in order, counted from the first one on. `at` is how many were told. Of those that were told the oldest
    go where there are too many; those that weren't go too only while nobody is there to be told."""

    def __init__(self, messages: Iterable[str] = (), keeps_told: bool = False) -> None:
        self.keeps_told = keeps_told
        self.messages: deque[str] = deque()
        self.size = 0
        self.first = self.at = 0
        self.add(messages, True)

    @property
    def total(self) -> int:
        return self.first + len(self.messages)

    @property
    def untold(self) -> int:
        return self.total - self.at

    @property
    def is_full(self) -> bool:
        """Whether so many wait to be told that no more should be added."""
        return self.untold > MOST or self.size > MOST_BYTES and self.untold > 0

    def add(self, messages: Iterable[str], is_read: bool) -> None:
        """Adds messages; `is_read` says whether somebody is there to be told."""
        for it in messages:
            self.messages.append(it)
            self.size += len(it)
        self.trim(is_read)

    def trim(self, is_read: bool) -> None:
        while self.messages and self.is_too_much and (not is_read or self.first < self.at):
            self.drop()
        self.at = max(self.at, self.first)

    @property
    def is_too_much(self) -> bool:
        return not self.keeps_told and self.first < self.at or len(self.messages) > MOST or self.size > MOST_BYTES

    def drop(self) -> None:
        self.size -= len(self.messages.popleft())
        self.first += 1

    def next(self) -> str:
        """The next message that wasn't told, which is told thereby."""
        text = self.messages[self.at - self.first]
        self.at += 1
        self.trim(True)
        return text

    def go_back(self, count: int) -> bool:
        """Whether all messages behind so many are there, which are told again then."""
        is_there = self.first <= count <= self.total
        if is_there:
            self.at = count
        return is_there

    def rest(self) -> list[str]:
        """What wasn't told."""
        return list(islice(self.messages, self.at - self.first, None))
