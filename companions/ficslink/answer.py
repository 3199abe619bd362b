"""What the server answers to a line: what the command printed, and the news behind it."""

from collections.abc import Sequence
from dataclasses import dataclass
from typing import TypeVar

from .board import Board
from .line import Line, News, Reply
from .lines import Goodbye, Hands, Refused, TextRank, TextTurn, parse

Kind = TypeVar("Kind", bound=Line)
SHOWING = ("refresh", "observe")  # the commands that print boards
SHOWN = (Board, Hands, TextRank, TextTurn)


@dataclass(frozen=True, slots=True)
class Answer:
    """An answer. A board that a command shows is among both its `lines` and its `news`, since nothing tells where the
    shown ones end and those of news begin."""

    lines: tuple[Line, ...]  # what the command itself printed
    news: tuple[Line, ...]
    prompt: str  # the prompt behind it; none behind a farewell

    @classmethod
    def to(cls, command: str, texts: Sequence[str], prompt: str) -> "tuple[Answer, tuple[Line, ...]]":
        """The answer to a command, and all its lines in their order."""
        read = tuple(parse(it, command) for it in texts)
        own = 0
        while own < len(read) and _is_printed(read[own], own):
            own += 1
        shown = own
        word = command.strip(" ").partition(" ")[0].lower()
        if word and any(it.startswith(word) for it in SHOWING):
            while shown < len(read) and isinstance(read[shown], SHOWN):
                shown += 1
        return cls(read[:shown], read[own:], prompt), read

    @property
    def refused(self) -> Refused | None:
        """The refusal, where it is one."""
        first = self.lines[0] if self.lines else None
        return first if isinstance(first, Refused) else None

    def all(self, kind: type[Kind]) -> list[Kind]:
        """Its lines of that kind, as `answer.all(lines.Player)` behind `who`."""
        return [it for it in self.lines if isinstance(it, kind)]


def _is_printed(line: Line, place: int) -> bool:
    """Whether a command printed the line of that place, behind others that it printed: one reply, a list or a
    farewell."""
    if isinstance(line, Reply):
        return place == 0
    return isinstance(line, Goodbye) or not isinstance(line, News)
