"""What happens to a member. A line that belongs to no game, as a challenge or what somebody tells one, is an event by
itself, of its class of `ficslink.lines`; what happens in a game is one of the classes below."""

from dataclasses import dataclass

from .board import Board
from .game import Game, Offer
from .line import Line


@dataclass(frozen=True, slots=True)
class Began:
    """A game is told from here on: it begins, goes on from another day, or one looks on."""

    game: Game


@dataclass(frozen=True, slots=True)
class Moved:
    """A half-move was made, or some were taken back, to this board."""

    game: Game
    board: Board


@dataclass(frozen=True, slots=True)
class Turn:
    """One is to move in an own game: behind `Began` or `Moved`, where the game isn't over by that half-move."""

    game: Game


@dataclass(frozen=True, slots=True)
class Offered:
    """An offer was made at a game, also by oneself."""

    game: Game
    offer: Offer


@dataclass(frozen=True, slots=True)
class Ended:
    """A game is over: `game.result` and `game.reason` say how."""

    game: Game


@dataclass(frozen=True, slots=True)
class LinkLost:
    """The link is lost, and with it all games: the server has adjourned or ended those that one played. One comes
    again by oneself."""

    why: str


@dataclass(frozen=True, slots=True)
class CameAgain:
    """One is in again, under this name."""

    name: str


Event = Began | Moved | Turn | Offered | Ended | LinkLost | CameAgain | Line
