"""A game as the scribe knows it: who plays, by which terms, from which position on, and each half-move.

A record is built from board lines alone. It is whole where it begins at the array of its variant; else it begins with
the position at which it was first seen, and no half-move before that is made up.
"""

from dataclasses import dataclass, field
from datetime import datetime

from ficslink.arrays import USUAL, array
from ficslink.board import FILES, Board
from ficslink.terms import Terms


@dataclass(frozen=True, slots=True)
class HalfMove:
    """A half-move as the server told it."""

    ply: int  # how many half-moves there are with it
    short: str  # e4, Nbd2, P@e4
    long: str  # P/e2-e4
    took: str  # 0:04
    left: int | None  # the whole seconds that its player has left behind it; none without clocks


@dataclass(frozen=True, slots=True)
class Place:
    """A position: the men on the board and who is to move."""

    ranks: tuple[str, ...]
    side: str
    ply: int

    @classmethod
    def of(cls, board: Board) -> "Place":
        return cls(board.ranks, board.side, board.ply)

    def man(self, square: str) -> str:
        return self.ranks[8 - int(square[1])][FILES.index(square[0])]


@dataclass
class Record:
    """What is known of a game."""

    number: int  # of the game on the server
    white: str
    black: str
    terms: Terms
    begun: datetime  # when it was first seen
    first: str = ""  # the board line from which the half-moves go on; nothing where that is the array
    hands: tuple[str, str] | None = None  # the men in hand there, where they are known
    half_moves: list[HalfMove] = field(default_factory=list)
    last: Place | None = None
    result: str = "*"
    reason: str = ""
    ended: datetime | None = None
    partner: str = ""  # the link of the other board's game, in bughouse
    is_late: bool = False  # whether its first half-move stands elsewhere, and isn't told again by a board behind it
    link: str = ""  # the day on which it ended and its number in that day, as 2026-11-30/17
    accounts: tuple[bool, bool] | None = None  # whether White and Black had one, where that is known

    @property
    def is_whole(self) -> bool:
        return not self.first

    @property
    def array(self) -> str:
        """White's first rank in the array."""
        return array(self.terms.array) if self.terms.array is not None else USUAL

    @property
    def is_usual(self) -> bool:
        """Whether it is chess from the usual array."""
        return self.terms.kind == "chess" and self.is_whole

    def fen(self) -> str:
        """The position from which the half-moves go on, as a FEN; nothing where that is the usual array."""
        if self.first:
            board = Board.parsed(self.first)
            if not board:
                raise ValueError(f"no board line: {self.first}")
            return board.fen(self.array, self.hands)
        if self.array == USUAL:
            return ""
        rights = "".join(sorted((FILES[at] for at, man in enumerate(self.array) if man == "R"), reverse=True)).upper()
        usual = (self.array.index("R"), self.array.index("K"), self.array.rindex("R")) == (0, 4, 7)
        rights = "KQ" if usual else rights
        return f"{self.array.lower()}/pppppppp/8/8/8/8/PPPPPPPP/{self.array} w {rights}{rights.lower()} - 0 1"

    # ---- what is told ----

    def hear(self, board: Board) -> None:
        """Takes a board: the next half-move, the place after a takeback, or the same place again."""
        if self.last and self.last.ply == board.ply and self.last.ranks == board.ranks:
            return
        if self.last and board.ply == self.last.ply + 1 and follows(self.last, board):
            self._add(board)
        elif not self.last and not self.is_late and board.ply == 1 and follows(self._array_place(), board):
            self._add(board)
        elif not self._go_back_to(board):
            self._begin_at(board)
        self.last = Place.of(board)

    def _array_place(self) -> Place:
        ranks = (self.array.lower(), "p" * 8, *["-" * 8] * 4, "P" * 8, self.array)
        return Place(ranks, "W", 0)

    def _add(self, board: Board) -> None:
        left = board.left("black" if board.side == "W" else "white") if board.is_timed else None
        self.half_moves.append(HalfMove(board.ply, board.short, board.long, board.took.strip("()"), left))

    def _go_back_to(self, board: Board) -> bool:
        """Takes half-moves out that were taken back; whether the record reaches back to there."""
        start = self.first_ply
        if not self.last or not start <= board.ply < self.last.ply:
            return False
        kept = [it for it in self.half_moves if it.ply <= board.ply]
        told = kept[-1].long if kept else "none" if self.is_whole else None
        if told is not None and told != board.long:
            return False
        self.half_moves = kept
        return True

    @property
    def first_ply(self) -> int:
        """How many half-moves were made before the first one that it has."""
        board = Board.parsed(self.first) if self.first else None
        return board.ply if board else 0

    def _begin_at(self, board: Board) -> None:
        """Begins with a position, behind which half-moves are known."""
        self.half_moves = []
        self.hands = None
        self.first = "" if board.ply == 0 else str(board)

    def hear_hands(self, hands: tuple[str, str], came: str = "") -> None:
        """Takes the men in hand behind the latest half-move. The first ones tell what was in hand before it."""
        if self.is_whole or self.hands is not None or self.terms.kind != "crazyhouse":
            return
        mover = 0 if self.last and self.last.side == "B" else 1
        before = [list(it) for it in hands]
        if came and came in before[mover]:
            before[mover].remove(came)
        if self.half_moves and self.half_moves[-1].long[2:4] == "@@":
            before[mover].append(self.half_moves[-1].long[0])
        self.hands = "".join(before[0]), "".join(before[1])

    def end(self, reason: str, result: str, now: datetime) -> None:
        self.reason, self.result, self.ended = reason, result, now


def follows(before: Place, board: Board) -> bool:
    """Whether the board is what its own previous half-move makes of that place: what stands on other squares stays."""
    if (before.side == board.side) or before.ply + 1 != board.ply:
        return False
    changed = {
        f"{file}{8 - row}"
        for row in range(8)
        for at, file in enumerate(FILES)
        if before.ranks[row][at] != board.ranks[row][at]
    }
    return changed <= touched(before, board)


def touched(before: Place, board: Board) -> set[str]:
    """The squares that the board's previous half-move may have changed."""
    if board.long.startswith("o-o"):
        rank = "1" if before.side == "W" else "8"
        return {f"{file}{rank}" for file in FILES}
    start, _, end = board.long.partition("/")[2].partition("=")[0].partition("-")
    if start == "@@":
        return {end}
    passed = {end[0] + start[1]} if board.long[0] == "P" and start[0] != end[0] and before.man(end) == "-" else set()
    return {start, end} | passed
