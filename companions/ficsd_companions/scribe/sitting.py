"""What is played at a desk, from its first board that was seen to its end: one game, or the two of a pair.

A sitting is what the server's lines say of it, so a file of these lines, the journal, restores it.
"""

from dataclasses import dataclass, field
from datetime import datetime

from ficslink.board import Board
from ficslink.line import Line
from ficslink.lines import GameListed, GameOver, Hands, HandsCame, parse

from .record import HalfMove, Place, Record, follows

LETTERS = "AB"


@dataclass
class Sitting:
    """The games at a desk, by their numbers."""

    records: dict[int, Record]
    order: list[tuple[str, HalfMove]] = field(default_factory=list)  # of a pair, in the order in which they came
    lines: list[str] = field(default_factory=list)  # of the server, as they came
    links: list[str] = field(default_factory=list)  # under which the games are written, once they are over

    @classmethod
    def of(cls, games: list[GameListed], now: datetime, is_late: bool = False) -> "Sitting":
        return cls({it.game: Record(it.game, it.white, it.black, it.terms, now, is_late=is_late) for it in games})

    @property
    def first(self) -> Record:
        return next(iter(self.records.values()))

    @property
    def is_pair(self) -> bool:
        return len(self.records) > 1

    @property
    def is_over(self) -> bool:
        return all(it.ended for it in self.records.values())

    @property
    def is_adjourned(self) -> bool:
        return self.is_over and self.first.reason == "adjourned"

    @property
    def has_half_moves(self) -> bool:
        return any(it.half_moves for it in self.records.values())

    @property
    def is_worth_keeping(self) -> bool:
        """A game that ended without a half-move and without a result is none."""
        return self.has_half_moves or any(it.result != "*" for it in self.records.values())

    def is_of(self, games: list[GameListed]) -> bool:
        """Whether the games that are listed at a desk are played by the same people on the same terms."""
        listed = [(it.white, it.black, str(it.terms)) for it in games]
        return listed == [(it.white, it.black, str(it.terms)) for it in self.records.values()]

    def goes_on_with(self, boards: list[Board]) -> bool:
        """Whether these boards are its places, or one half-move behind them. Of two half-moves, one at each board of a
        pair, nobody knows which came first."""
        by_names = {(it.white, it.black): it for it in boards}
        made = 0
        for record in self.records.values():
            board = by_names.get((record.white, record.black))
            if not board or not record.last:
                return False
            if Place.of(board) != record.last:
                if not follows(record.last, board):
                    return False
                made += 1
        return made <= 1

    def has_kept(self, boards: list[Board]) -> bool:
        """Whether it has the half-move that led to one of these boards."""
        places = {(it.white, it.black, Place.of(it)) for it in boards}
        return any(it.half_moves and (it.white, it.black, it.last) in places for it in self.records.values())

    def renumber(self, first: int) -> None:
        """Goes on at the desk with that game, the first of a pair's, from now on without an end."""
        for number, record in enumerate(self.records.values(), first):
            record.number, record.reason, record.result, record.ended = number, "", "*", None
        self.records = {it.number: it for it in self.records.values()}

    def hear(self, line: Line, now: datetime) -> None:
        """Takes a line of one of its games."""
        record = self.records.get(getattr(line, "game", 0))
        if not record:
            return
        self.lines.append(str(line))
        if isinstance(line, Board):
            known = len(record.half_moves)
            record.hear(line)
            if self.is_pair and len(record.half_moves) > known:
                letter = LETTERS[list(self.records).index(record.number)]
                self.order.append((letter, record.half_moves[-1]))
        elif isinstance(line, Hands):
            came = line.came if isinstance(line, HandsCame) else ""
            record.hear_hands((line.white_hand, line.black_hand), came)
        elif isinstance(line, GameOver):
            record.end(line.reason, line.result, now)

    def replay(self, line: str, now: datetime) -> None:
        """Takes a line of a journal. It may be of another desk than the one before, since games go on elsewhere; they
        do so with a board."""
        told = parse(line)
        if isinstance(told, Board):
            names = [(it.white, it.black) for it in self.records.values()]
            if (told.white, told.black) in names and (self.is_over or told.game not in self.records):
                self.renumber(told.game - names.index((told.white, told.black)))
        self.hear(told, now)
