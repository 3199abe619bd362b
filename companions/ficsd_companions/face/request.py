"""Lines that were typed, with the answers that are due to them."""

from collections.abc import Callable, Sequence
from typing import TYPE_CHECKING

from .boards import Board
from .told import is_news, read

if TYPE_CHECKING:
    from .session import Session

Lines = list[str]
Render = Callable[[list[Lines]], Lines]  # makes the client's lines of the answers to each line that was asked


class Request:
    """A line that was typed, with the answers that the server owes for it: `asks` are the lines for the server, `tag`
    and `code` what block mode has of it."""

    def __init__(
        self, tag: int | None, code: int, asks: Sequence[str], render: Render, board_heads: tuple[str, ...] = ()
    ) -> None:
        self.tag, self.code, self.asks, self.render = tag, code, asks, render
        self.board_heads = board_heads  # lines that begin so are part of the answer and not news
        self.answers: list[Lines] = []
        self.news: Lines = []

    @property
    def is_answered(self) -> bool:
        return len(self.answers) == len(self.asks)

    def own(self, lines: Lines) -> int:
        """How many of an answer's lines the command itself printed; news stand behind them."""
        for n, line in enumerate(lines):
            if is_news(line) and not line.startswith(self.board_heads):
                return n
        return len(lines)


class Observation(Request):
    """The list of games, and then an `observe`, whose own boards are those of games that weren't known before."""

    def __init__(self, tag: int | None, code: int, asks: Sequence[str], render: Render, session: "Session") -> None:
        super().__init__(tag, code, asks, render)
        self.session = session

    def own(self, lines: Lines) -> int:
        if not self.answers:
            n = super().own(lines)
            self.session.learn_games(lines[:n])
            return n
        n = 0
        while n < len(lines) and self.is_new(lines[n]):
            n += 1
        return n or super().own(lines)

    def is_new(self, line: str) -> bool:
        """Whether it is a board of a game that wasn't known."""
        board = read(line)
        return isinstance(board, Board) and board.game not in self.session.games
