"""Talk that is held back while a tab takes little of what it is told, so that boards go before it. Nothing else changes
places: what may stand in one room with talk, as a game's end or what the member says itself, goes behind that."""

from collections import deque
from collections.abc import Iterable

from ficsd_companions.limits.hearing import is_talk
from ficslink.texts import NEWS_BEGIN, PROMPTS, READY, WANTS_ACKNOWLEDGEMENT

BOARDS = "<12> ", "<b1> ", WANTS_ACKNOWLEDGEMENT  # how a board, the men in hand and a wish behind them begin
AT_A_TIME = 2048  # bytes of talk that a board which comes next goes behind
MOST_OF_PART = 256  # messages; a longer part is told as it comes


class Held:
    """The talk that one tab isn't told yet, in its order."""

    def __init__(self) -> None:
        self.talk: deque[str] = deque()
        self.part: list[str] = []  # of one that is looked at as a whole, what there is of it
        self.begins_part = self.passes = True  # the part that comes next, or is under way, is told as it comes

    def of(self, texts: Iterable[str], waits: bool) -> list[str]:
        """What of these messages is told now. `waits` says that the tab hasn't taken what it was told."""
        told: list[str] = []
        for text in texts:
            if self.begins_part:
                self.passes = not self.talk and not (waits and text == NEWS_BEGIN)
            self.begins_part = text in PROMPTS
            if self.passes:
                told.append(text)
                continue
            self.part.append(text)
            if self.begins_part:
                told += self.of_part()
            elif len(self.part) > MOST_OF_PART:
                told += self.all()
        return told

    def of_part(self) -> list[str]:
        """What is told now of a part that is whole."""
        is_news = self.part[0] == NEWS_BEGIN
        talk = [it for it in self.part if is_news and is_talk(it)]
        rest = [it for it in self.part if not is_news or not is_talk(it)]
        others = rest[is_news:-1]
        if not all(it.startswith(BOARDS) for it in others):
            return self.all()
        self.talk += talk
        self.part = rest if others or not is_news else []
        return self.now()

    def now(self) -> list[str]:
        """What there is of a part, which is told now."""
        part, self.part = self.part, []
        return part

    def some(self) -> list[str]:
        """Some of the talk, which is told now."""
        lines: list[str] = []
        size = 0
        while self.talk and size < AT_A_TIME:
            lines.append(self.talk.popleft())
            size += len(lines[-1])
        return as_news(lines)

    def all(self) -> list[str]:
        """All of the talk, and what there is of a part, which are told now."""
        lines = list(self.talk)
        self.talk.clear()
        self.passes = True
        return as_news(lines) + self.now()


def as_news(lines: list[str]) -> list[str]:
    return [NEWS_BEGIN, *lines, READY] if lines else []
