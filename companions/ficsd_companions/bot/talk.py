"""What the bot tells those who tell it something."""

import time
from dataclasses import dataclass

from .levels import Levels
from .terms import Terms

PAUSE = 1.0  # seconds between two answers to one member


@dataclass(frozen=True)
class About:
    """What others may know of the bot."""

    name: str
    engine: str
    terms: Terms
    levels: Levels | None = None  # where its strength can be chosen

    def answer(self, who: str, text: str, games: int) -> list[str] | None:
        """The lines that answer a text; none for one that isn't a word of the bot's."""
        word = text.strip().lower().rstrip("?!.")
        if self.levels and (said := self.levels.answer(who, text)):
            return [said]
        if word in ("help", "hi", "hello"):
            return self.help()
        if word == "engine":
            return [f"I play by {self.engine}."]
        if word == "status":
            return [f"I play {games} of at most {self.terms.most} {'game' if self.terms.most == 1 else 'games'}."]
        return None

    def help(self) -> list[str]:
        """What it plays, and how one gets a game."""
        kind = self.terms.variants[0]
        example = self.terms.example("fischer 518" if kind == "fischer" else kind)
        return [
            f"I am a program, {self.engine}. I play {self.terms}.",
            f"To play, type: match {self.name} {example}",
            *([self.levels.hint()] if self.levels else []),
            "I accept a draw where I don't stand better, one takeback a game, an abort before the second move, and to "
            "adjourn; a game that we adjourned I resume.",
            f"I know these words: help, engine, {'level, ' if self.levels else ''}status.",
        ]

    def hint(self) -> str:
        """What it says to who says something else."""
        return f"I am a program and know few words. Type: tell {self.name} help"


class Answers:
    """The answers to all members. Each is told where to find help once; and nobody is answered more often than once in
    a second, so that two programs don't talk without end."""

    def __init__(self, about: About) -> None:
        self.about = about
        self.answered: dict[str, float] = {}

    def to(self, who: str, text: str, games: int) -> list[str]:
        """The lines that answer what somebody says."""
        now = time.monotonic()
        last = self.answered.get(who)
        if last is not None and now - last < PAUSE:
            return []
        said = self.about.answer(who, text, games)
        if said is None and last is not None:
            return []
        self.answered[who] = now
        return said or [self.about.hint()]
