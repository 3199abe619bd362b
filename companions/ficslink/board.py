"""A board line: 31 fields with one blank between two of them, each under its name, and the position as a FEN."""

import re
from collections.abc import Iterator
from dataclasses import dataclass
from typing import Self

from .arrays import USUAL
from .line import News
from .terms import NUMBER

MINE, THEIRS, WATCHED = 1, -1, 0  # the relation: who is to move, or that one looks on
FILES = "abcdefgh"

_HANDLE = "[A-Za-z]{3,17}"
_BIT = "[01]"
_SQUARE = "[a-h][1-8]"
_WHOLE = r"(?:0|-?[1-9]\d*)"
_LONG = rf"(?:none|o-o|o-o-o|[PNBRQ]/@@-{_SQUARE}|[PNBRQK]/{_SQUARE}-{_SQUARE}(?:=[QRBN])?)"
_SHORT = (
    rf"(?:none|(?:O-O|O-O-O|[PNBRQ]@{_SQUARE}|[NBRQK][a-h]?[1-8]?x?{_SQUARE}"
    rf"|(?:[a-h]x)?{_SQUARE}(?:=[QRBN])?)[+#]?)"
)
_FORM = re.compile(
    " ".join(
        (
            "<12>",
            *["([pnbrqkPNBRQK-]{8})"] * 8,
            "([WB])",
            "(-1|[0-7])",
            *[f"({_BIT})"] * 4,
            f"({NUMBER})",
            f"({NUMBER})",
            f"({_HANDLE})",
            f"({_HANDLE})",
            "(-1|0|1)",
            *[f"({NUMBER})"] * 4,
            f"({_WHOLE})",
            f"({_WHOLE})",
            r"([1-9]\d*)",
            f"({_LONG})",
            r"(\(\d+:[0-5]\d\))",
            f"({_SHORT})",
            f"({_BIT})",
        )
    )
)


@dataclass(frozen=True, slots=True)
class Board(News):
    """A board line. `str(board)` is the line."""

    ranks: tuple[str, ...]  # eight, White's eighth first, each from file a to file h; `-` is an empty square
    side: str  # W or B: who is to move
    double_push: int  # the file of a double push of a pawn by the previous half-move, 0 to 7; else -1
    white_short: bool  # who may still castle where
    white_long: bool
    black_short: bool
    black_long: bool
    quiet: int  # the half-moves since the last pawn's move, capture or drop
    game: int
    white: str
    black: str
    relation: int  # 1 it is my move, -1 my opponent's, 0 I watch, or it is my partner's board
    minutes: int
    increment: int
    white_material: int
    black_material: int
    white_left: int  # whole seconds, without the time that runs; below 0 where the flag has fallen
    black_left: int
    number: int  # of the move about to be made
    long: str  # the previous half-move, as P/e2-e4; none at the start
    took: str  # the time that it took, as (0:03)
    short: str  # the previous half-move, as e4; none at the start
    black_below: bool

    @classmethod
    def parsed(cls, line: str) -> Self | None:
        """The board that a line tells; none where it is no board line."""
        match = _FORM.fullmatch(line)
        if not match:
            return None
        fields = match.groups()
        short, long, blacks_short, blacks_long = (it == "1" for it in fields[10:14])
        numbers = [int(it) for it in fields[18:26]]
        return cls(
            fields[:8],
            fields[8],
            int(fields[9]),
            short,
            long,
            blacks_short,
            blacks_long,
            int(fields[14]),
            int(fields[15]),
            fields[16],
            fields[17],
            numbers[0],
            numbers[1],
            numbers[2],
            numbers[3],
            numbers[4],
            numbers[5],
            numbers[6],
            numbers[7],
            fields[26],
            fields[27],
            fields[28],
            fields[29] == "1",
        )

    def __str__(self) -> str:
        rights = (self.white_short, self.white_long, self.black_short, self.black_long)
        fields = (
            "<12>",
            *self.ranks,
            self.side,
            self.double_push,
            *map(int, rights),
            self.quiet,
            self.game,
            self.white,
            self.black,
            self.relation,
            self.minutes,
            self.increment,
            self.white_material,
            self.black_material,
            self.white_left,
            self.black_left,
            self.number,
            self.long,
            self.took,
            self.short,
            int(self.black_below),
        )
        return " ".join(map(str, fields))

    @property
    def turn(self) -> str:
        """The colour that is to move: white or black."""
        return "white" if self.side == "W" else "black"

    @property
    def ply(self) -> int:
        """How many half-moves led to it."""
        return 2 * (self.number - 1) + (self.side == "B")

    @property
    def is_timed(self) -> bool:
        """Whether clocks run in its game."""
        return self.minutes > 0 or self.increment > 0

    @property
    def position(self) -> tuple[object, ...]:
        """What two lines of the same place in the same game have in common."""
        return (*self.ranks, self.side, self.white, self.black, self.number, self.long)

    @property
    def repeated(self) -> tuple[object, ...]:
        """What is the same where a position stands again: the men, the side to move, the rights, and the file of a
        double push where a pawn stands beside it that may capture there."""
        rights = (self.white_short, self.white_long, self.black_short, self.black_long)
        return (*self.ranks, self.side, *rights, self.double_push if self._is_beside_push() else -1)

    def _is_beside_push(self) -> bool:
        rank, pawn = (self.ranks[3], "P") if self.side == "W" else (self.ranks[4], "p")
        return self.double_push >= 0 and any(
            rank[file] == pawn for file in (self.double_push - 1, self.double_push + 1) if 0 <= file < len(FILES)
        )

    def left(self, colour: str) -> int:
        """The whole seconds that white or black has left, without the time that runs."""
        return self.white_left if colour == "white" else self.black_left

    def man(self, square: str) -> str:
        """The man on a square, as `e1`: a letter, upper-case for White's, or `-`."""
        return self.ranks[8 - int(square[1])][FILES.index(square[0])]

    def men(self) -> Iterator[tuple[str, str]]:
        """The squares that aren't empty, each with its man."""
        for number, rank in zip(range(8, 0, -1), self.ranks):
            yield from ((f"{file}{number}", man) for file, man in zip(FILES, rank) if man != "-")

    def fen(
        self, array: str = USUAL, hands: tuple[str, str] | None = None, promoted: frozenset[str] = frozenset()
    ) -> str:
        """The position as a FEN. `array` is White's first rank at the start, which Fischer random needs: castling
        rights are told by the rooks' files unless king and rooks begin where they do in chess. `hands` are the men in
        the hands of White and of Black, which crazyhouse has in brackets; `promoted` are the squares of men that came
        by promotion, which are marked `~` there."""
        rows = (_row(rank, number, promoted) for number, rank in zip(range(8, 0, -1), self.ranks))
        placed = "/".join(rows)
        if hands is not None:
            placed += f"[{hands[0].upper()}{hands[1].lower()}]"
        pushed = "-"
        if self.double_push >= 0:
            pushed = FILES[self.double_push] + ("6" if self.side == "W" else "3")
        return f"{placed} {self.side.lower()} {self._rights(array)} {pushed} {self.quiet} {self.number}"

    def _rights(self, array: str) -> str:
        king = array.index("K")
        long, short = array.index("R"), array.rindex("R")
        is_usual = (long, king, short) == (0, 4, 7)
        letters = "KQ" if is_usual else (FILES[short] + FILES[long]).upper()
        rights = zip(letters + letters.lower(), (self.white_short, self.white_long, self.black_short, self.black_long))
        return "".join(letter for letter, is_given in rights if is_given) or "-"


def _row(rank: str, number: int, promoted: frozenset[str]) -> str:
    """A rank as a FEN has it."""
    men = "".join(man + ("~" if f"{file}{number}" in promoted else "") for file, man in zip(FILES, rank))
    return re.sub("-+", lambda it: str(len(it[0])), men)
