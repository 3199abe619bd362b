"""A game of which a member is told."""

import time
from dataclasses import dataclass, field
from typing import TypeVar

from .arrays import USUAL, array
from .board import FILES, MINE, THEIRS, Board
from .line import Line
from .lines import AbortOffered, AdjournOffered, DrawOffered, GameOver, Hands, OfferDeclined, TakebackOffered, TakenBack
from .terms import Terms

OWN, PARTNERS, WATCHED = "own", "partner's", "watched"
TICKS_FROM = 2  # the first half-move of each colour is free
AnyBoard = TypeVar("AnyBoard", bound=Board)
_KINDS: dict[type[Line], str] = {
    DrawOffered: "draw",
    AbortOffered: "abort",
    AdjournOffered: "adjourn",
    TakebackOffered: "takeback",
}


@dataclass(frozen=True, slots=True)
class Offer:
    """An offer at a game."""

    who: str
    kind: str  # draw, abort, adjourn or takeback
    half_moves: int = 0  # of a takeback


def offer_of(line: Line) -> Offer | None:
    """The offer that a line makes, where it makes one."""
    if isinstance(line, TakebackOffered):
        return Offer(line.who, "takeback", line.number)
    if isinstance(line, (DrawOffered, AbortOffered, AdjournOffered)):
        return Offer(line.who, _KINDS[type(line)])
    return None


def add(boards: list[AnyBoard], board: AnyBoard) -> None:
    """Puts a board behind those before it. One that was told again or taken back to replaces what came later, and those
    before one that doesn't follow them are forgotten."""
    while boards and boards[-1].ply >= board.ply:
        boards.pop()
    if boards and boards[-1].ply + 1 != board.ply:
        boards.clear()
    boards.append(board)


@dataclass(eq=False)
class Game:
    """A game: its players, its terms, its boards from the first one that was told, and the offers that stand."""

    number: int
    white: str
    black: str
    terms: Terms | None  # none where one looks on, and the list of games wasn't asked for
    role: str  # own, partner's or watched
    colour: str | None = None  # one's own: white or black
    boards: list[Board] = field(default_factory=list)
    hands: tuple[str, str] | None = None  # the men in the hands of White and of Black, where they were told
    offers: list[Offer] = field(default_factory=list)  # in the order in which they were made
    reason: str = ""  # once it is over
    result: str = ""
    _since: float = 0.0  # the moment of the latest board

    # ---- what is so ----

    @property
    def board(self) -> Board:
        """The board as it stands."""
        return self.boards[-1]

    @property
    def is_over(self) -> bool:
        """Whether it has ended, or the link over which it was told."""
        return bool(self.result)

    @property
    def opponent(self) -> str:
        """Who plays against one, in an own game."""
        return self.black if self.colour == "white" else self.white

    @property
    def is_my_turn(self) -> bool:
        """Whether one is to move."""
        return self._waits_for(MINE)

    @property
    def is_opponents_turn(self) -> bool:
        """Whether one waits for the opponent's move."""
        return self._waits_for(THEIRS)

    def _waits_for(self, relation: int) -> bool:
        return self.role == OWN and not self.is_over and bool(self.boards) and self.board.relation == relation

    @property
    def won(self) -> bool | None:
        """Whether one has won or lost an own game that is over; none where neither has."""
        winner = {"1-0": "white", "0-1": "black"}.get(self.result)
        return winner == self.colour if winner and self.colour else None

    @property
    def may_claim_draw(self) -> bool:
        """Whether the rules give a draw to whoever types `draw`, as far as the boards that were told show it: 100 quiet
        half-moves, or the position for the third time. In crazyhouse and bughouse they give none."""
        if self.is_over or not self.boards or self.terms and self.terms.has_hands:
            return False
        return self.board.quiet >= 100 or sum(it.repeated == self.board.repeated for it in self.boards) >= 3

    def left(self, colour: str) -> float | None:
        """The seconds that white or black has left now; none where no clocks run. Below 0 the flag may be called."""
        if not self.boards or not self.board.is_timed:
            return None
        left = float(self.board.left(colour))
        runs = colour == self.board.turn and self.board.ply >= TICKS_FROM and not self.is_over
        return left - (time.monotonic() - self._since) if runs else left

    # ---- the position ----

    @property
    def is_whole(self) -> bool:
        """Whether it was told from its first board on."""
        return bool(self.boards) and self.boards[0].ply == 0

    @property
    def array(self) -> str:
        """White's first rank at the start."""
        if self.terms and self.terms.array is not None:
            return array(self.terms.array)
        return self.boards[0].ranks[7] if self.is_whole else USUAL

    def fen(self) -> str:
        """The position as a FEN: with castling rights by file where the array isn't the usual one, and in crazyhouse
        and bughouse with the hands in brackets and with `~` behind men that came by a promotion that was told."""
        has_hands = self.hands is not None or bool(self.terms and self.terms.has_hands)
        hands = (self.hands or ("", "")) if has_hands else None
        return self.board.fen(self.array, hands, self._promoted() if has_hands else frozenset())

    def _promoted(self) -> frozenset[str]:
        """The squares of men that came by promotion."""
        squares: set[str] = set()
        for board in self.boards[1:]:
            start, _, end = board.long.partition("/")[2].partition("=")[0].partition("-")
            if end:
                is_promoted = start in squares or "=" in board.long
                squares -= {start, end}
                squares |= {end} if is_promoted else set()
        return frozenset(squares)

    def moves(self, by_rook: bool = False) -> list[str]:
        """The half-moves behind its first board, as engines spell them (UCI): e2e4, e7e8q, P@e4. Castling is the
        king's own move, or that on its rook's square (`by_rook`, as UCI_Chess960 has it)."""
        return [self._uci(board, by_rook) for board in self.boards[1:]]

    def words(self) -> list[str]:
        """The half-moves behind its first board, as the server spells them."""
        return [it.short for it in self.boards[1:]]

    def _uci(self, board: Board, by_rook: bool) -> str:
        if board.long.startswith("o-o"):
            king, rank = FILES[self.array.index("K")], "1" if board.side == "B" else "8"
            is_short = board.long == "o-o"
            rook = FILES[self.array.rindex("R") if is_short else self.array.index("R")]
            return king + rank + (rook if by_rook else "g" if is_short else "c") + rank
        man, _, way = board.long.partition("/")
        if way.startswith("@@-"):
            return f"{man}@{way[3:]}"
        return way.replace("-", "").replace("=", "").lower()

    def word(self, move: str) -> str:
        """The server's word for a half-move that an engine spells; any other word as it is."""
        if len(move) == 5 and move[4] in "qrbn" and move[1] in "27":
            return f"{move[:4]}={move[4]}"
        is_plain = len(move) == 4 and move[0] in FILES and move[2] in FILES and move[1] == move[3] and move[1] in "18"
        if is_plain and self.boards:
            king, rook = ("K", "R") if self.board.turn == "white" else ("k", "r")
            if self.board.man(move[:2]) == king and self.board.man(move[2:]) == rook:
                return "O-O" if move[2] > move[0] else "O-O-O"
        return move

    # ---- what is told ----

    def hear_board(self, board: Board) -> bool:
        """Takes a board; whether it is another one than that before."""
        is_same = bool(self.boards) and self.board.position == board.position
        before = self.board if self.boards else None
        add(self.boards, board)
        if not is_same:
            self._since = time.monotonic()
            if before and board.ply > before.ply:
                self._drop_offers(self.white if board.side == "B" else self.black)
        return not is_same

    def _drop_offers(self, mover: str) -> None:
        """A half-move takes the opponent's offers and every takeback away."""
        self.offers = [it for it in self.offers if it.who == mover and it.kind != "takeback"]

    def hear_offer(self, offer: Offer) -> None:
        """Takes an offer, in whose place an earlier one of its kind by the same player is gone."""
        self.offers = [it for it in self.offers if (it.who, it.kind) != (offer.who, offer.kind)] + [offer]

    def hear(self, line: Line) -> None:
        """Takes any other line of it."""
        if isinstance(line, Hands):
            self.hands = line.white_hand, line.black_hand
        elif isinstance(line, OfferDeclined):
            turned_down = next((it for it in self.offers if it.who != line.who), None)
            self.offers = [it for it in self.offers if it is not turned_down]
        elif isinstance(line, TakenBack):
            self.offers = [it for it in self.offers if it.kind != "takeback"]
        elif isinstance(line, GameOver):
            self.reason, self.result = line.reason, line.result
            self.offers = []

    def break_off(self, why: str) -> None:
        """Nothing more of it is told."""
        if not self.is_over:
            self.reason, self.result = why, "*"
