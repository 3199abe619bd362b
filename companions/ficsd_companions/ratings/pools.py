"""The pools: who plays well in one may do badly in another, so each has ratings of its own."""

import re
from enum import Enum

from ficsd_companions.archive.kept import Kept

CONTROL = re.compile(r"(\d{1,6})(?:\+(\d{1,6}))?")
A_GAME = 40  # moves, by which the time of a game is estimated
UNTIMED = "-"


class Pool(Enum):
    """A pool, by the word that players type."""

    BULLET = "bullet"
    BLITZ = "blitz"
    RAPID = "rapid"
    CLASSICAL = "classical"
    CRAZYHOUSE = "crazyhouse"
    BUGHOUSE = "bughouse"
    FISCHER = "fischer"


# games of chess that are estimated to take less than so many seconds for each of the two
BOUNDS = ((180, Pool.BULLET), (480, Pool.BLITZ), (1500, Pool.RAPID))


def chess_pool(seconds: int, increment: int) -> Pool:
    """The pool of a game of chess with so many seconds, and so many more for each half-move."""
    estimate = seconds + A_GAME * increment
    return next((pool for bound, pool in BOUNDS if estimate < bound), Pool.CLASSICAL)


def pool_of(game: Kept) -> Pool | None:
    """The pool of a game; none where its tag `TimeControl` says nothing of its time."""
    if game.variant != "chess":
        return Pool(game.variant)
    if game.control == UNTIMED:
        return Pool.CLASSICAL
    control = CONTROL.fullmatch(game.control)
    return chess_pool(int(control[1]), int(control[2] or 0)) if control else None


def named(word: str) -> Pool | None:
    """The pool whose name begins so; none where none does, or several do."""
    found = [it for it in Pool if word and it.value.startswith(word.lower())]
    exact = [it for it in found if it.value == word.lower()]
    return exact[0] if exact else found[0] if len(found) == 1 else None
