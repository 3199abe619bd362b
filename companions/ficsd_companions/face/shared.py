"""What all sessions of a go-between know together: games and boards."""

from weakref import WeakValueDictionary

from .boards import Board, Game
from .told import board_of


class Shared:
    """The games that clients were told of."""

    def __init__(self) -> None:
        self.games: dict[int, Game] = {}  # of each game the longest telling that any client got
        self.boards: WeakValueDictionary[str, Board] = WeakValueDictionary()  # one for all who are told the same line

    def board(self, line: str) -> Board:
        """The board of a line."""
        return self.boards.get(line) or self.boards.setdefault(line, board_of(line))

    def note(self, game: Game) -> None:
        """Keeps the telling of a game where it is the longest."""
        known = self.games.get(game.number)
        is_same = known and (known.white, known.black) == (game.white, game.black)
        if not known or not is_same or len(known.boards) <= len(game.boards):
            self.games[game.number] = game

    def forget(self, number: int) -> None:
        """Forgets a game that has ended."""
        self.games.pop(number, None)
