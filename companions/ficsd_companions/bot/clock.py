"""How long the bot may think, in seconds.

A board line has whole seconds, cut towards zero, as they were when the half-move was made; what has passed since it
came is counted off. A margin is kept back for the link and for a busy machine.
"""

import os
from dataclasses import dataclass

from ficslink.game import Game

UNTIMED_THOUGHT, UNTIMED_PATIENCE = 3.0, 15.0
MOST_MARGIN = 2.0
LEAST = 0.05
LITTLE = 3.0  # and two increments: with less left, more is saved than used


@dataclass(frozen=True)
class Budget:
    """For one half-move: what an engine is told to have, when it is told to stop, and when it has failed."""

    own: float
    other: float
    increment: float
    is_timed: bool
    stop: float
    fail: float


def of(game: Game, games: int = 1) -> Budget:
    """The budget of the half-move that one has to make now, beside so many games."""
    white, black = game.left("white"), game.left("black")
    own, other = (white, black) if game.colour == "white" else (black, white)
    return budget(own, other, game.board.increment, games / (os.cpu_count() or 1))


def budget(own: float | None, other: float | None, increment: float, crowd: float = 1) -> Budget:
    """The budget of a half-move, with so many seconds left to both; without clocks there are none. `crowd` is how many
    games share a processor: each is thought about the less. Where little is left the increment is kept."""
    if own is None or other is None:
        return Budget(0, 0, 0, False, UNTIMED_THOUGHT, UNTIMED_PATIENCE)
    usable = max(LEAST, own - min(MOST_MARGIN, max(0.0, own) / 2))
    stop = max(LEAST, min(usable * 0.6, usable / 5 + 2 * increment + 1))
    patience = max(0.25, min(3.0, usable * 0.3))
    crowd = max(1.0, crowd)
    if own < LITTLE + 2 * increment:
        increment = 0
    return Budget(max(LEAST, usable / crowd), max(LEAST, other), increment / crowd, True, stop, stop + patience)


def share(given: Budget) -> float:
    """How long the house looks for one half-move: a part of what is left, and most of the increment."""
    if not given.is_timed:
        return UNTIMED_THOUGHT
    return min(given.own / 5, given.own / 40 + given.increment * 0.7)
