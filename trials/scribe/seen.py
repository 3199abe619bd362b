"""What a player's own link saw of each of its games, in the server's own lines. The archive is held against it.

It knows of takebacks by the server's line that says so, and not by comparing boards as the scribe does.
"""

import asyncio
import time
from dataclasses import dataclass, field

from ficslink.board import Board
from ficslink.lines import Continuing, Creating, GameOver, Hands, TakenBack


@dataclass(frozen=True)
class HalfMove:
    """A half-move, and the men on the board behind it."""

    ply: int
    short: str
    took: str
    left: int  # the seconds that its player has left
    ranks: tuple[str, ...]
    moment: float = field(compare=False)
    place: int = field(compare=False)  # among all half-moves that the link was told


@dataclass
class Seen:
    """A game as one link was told of it."""

    white: str
    black: str
    terms: str
    begun: float
    since: float  # when it began, or went on
    half_moves: list[HalfMove] = field(default_factory=list)
    given_up: list[list[HalfMove]] = field(default_factory=list)  # the half-moves as they stood before each takeback
    board: Board | None = None
    hands: dict[int, tuple[str, str]] = field(default_factory=dict)  # behind how many half-moves they became so
    reason: str = ""
    result: str = ""
    ended: float = 0.0

    def hear_board(self, board: Board, moment: float, place: int) -> None:
        self.board = board
        if board.ply == len(self.half_moves) + 1:
            took, left = board.took.strip("()"), board.left("black" if board.side == "W" else "white")
            self.half_moves.append(HalfMove(board.ply, board.short, took, left, board.ranks, moment, place))
        elif board.ply != len(self.half_moves):
            raise ValueError(
                f"{self.white} and {self.black} are behind {board.ply} half-moves, and "
                f"{len(self.half_moves)} were seen"
            )

    def take_back(self, count: int) -> None:
        self.given_up.append(list(self.half_moves))
        del self.half_moves[len(self.half_moves) - count :]
        self.hands = {ply: it for ply, it in self.hands.items() if ply <= len(self.half_moves)}

    def hands_behind(self, ply: int) -> tuple[str, str]:
        """The men in hand of White and of Black behind so many half-moves."""
        return self.hands[max(it for it in self.hands if it <= ply)] if self.hands else ("", "")

    @property
    def what(self) -> tuple[object, ...]:
        """What all links are to have seen alike."""
        return self.white, self.black, self.terms, self.half_moves, self.given_up, self.reason, self.result


class Eye:
    """Hears all lines of a link, as its listener."""

    is_full = False

    def __init__(self) -> None:
        self.games: dict[int, Seen] = {}  # those that run, by their numbers
        self.adjourned: dict[tuple[str, str], Seen] = {}
        self.last: Seen | None = None  # that of which the latest line with a number was told
        self.heard = 0  # boards
        self._changed = asyncio.Event()

    async def room(self) -> None:
        """What is told is taken at once."""

    def hear(self, lines) -> None:
        moment = time.time()
        for line in lines:
            self._take(line, moment)
        self._changed.set()

    def _take(self, line, moment: float) -> None:
        if isinstance(line, Creating):
            terms = str(line.terms)
            self.last = self.games[line.game] = Seen(line.white, line.black, terms, moment, moment)
        elif isinstance(line, Continuing):
            self.last = self.games[line.game] = self.adjourned.pop((line.white, line.black))
            self.last.reason, self.last.result, self.last.since = "", "", moment
        elif isinstance(line, TakenBack):
            self.last.take_back(line.number)
        elif isinstance(line, (Board, Hands, GameOver)):
            self.last = self.games[line.game]
            if isinstance(line, Board):
                self.heard += 1
                self.last.hear_board(line, moment, self.heard)
            elif isinstance(line, Hands):
                self.last.hands[len(self.last.half_moves)] = line.white_hand, line.black_hand
            else:
                self._end(line, moment)

    def _end(self, line: GameOver, moment: float) -> None:
        it = self.games.pop(line.game)
        it.reason, it.result, it.ended = line.reason, line.result, moment
        if line.reason == "adjourned":
            self.adjourned[line.white, line.black] = it

    def leaves(self) -> None:
        """Who leaves isn't told how its games end; they may go on another time."""
        self.adjourned |= {(it.white, it.black): it for it in self.games.values()}
        self.games.clear()

    def running(self, white: str, black: str) -> Seen | None:
        """The game of these two that runs."""
        return next((it for it in self.games.values() if (it.white, it.black) == (white, black)), None)

    async def until(self, holds) -> None:
        """Waits until something is so that is told."""
        while not holds():
            self._changed.clear()
            await self._changed.wait()
