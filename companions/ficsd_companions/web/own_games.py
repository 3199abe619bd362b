"""The games that a player plays, read off the lines that pass."""

from ficslink.board import WATCHED, Board
from ficslink.lines import GameOver, TextTurn, parse

BEGINNINGS = ("<12> ", "{Game ", "W to move, ", "B to move, ")  # of the lines that tell


class OwnGames:
    """The numbers of one's own games of which boards are told."""

    def __init__(self) -> None:
        self.playing: frozenset[int] = frozenset()

    def hear(self, line: str) -> None:
        """Takes a line of the server. A board in text doesn't say who of the two is to move, so it counts as none."""
        told = parse(line) if line.startswith(BEGINNINGS) else None
        if isinstance(told, Board) and told.relation != WATCHED:
            self.playing |= {told.game}
        elif isinstance(told, (GameOver, TextTurn)):
            self.playing -= {told.game}
