"""What the days of an archive make of everybody: a curve for each player and pool.

A day of the archive is a period of Glicko-2: all its games count at once, by what both were before it. So a curve has a
point for each day on which its player had a rated game of that pool, and days without one only let the deviation grow.
"""

import math
from bisect import bisect_left
from collections import defaultdict
from collections.abc import Iterable
from typing import NamedTuple

from ficsd_companions.archive.kept import Kept

from .glicko import NEWCOMER, Met, Rating, idle, updated
from .pools import Pool
from .verdicts import SCORES

PROVISIONAL = 110.0  # a deviation above which a rating says little


class Bout(NamedTuple):
    """A rated game: its sides, by names in small letters, and the score of the first one."""

    pool: Pool
    sides: tuple[tuple[str, ...], tuple[str, ...]]
    score: float

    @classmethod
    def of(cls, pool: Pool, boards: list[Kept]) -> "Bout":
        """The bout of a game, or of the two games of a pair, in which White of one board plays with Black of the
        other."""
        first, last = boards[0], boards[-1]
        one, other = (first.white, last.black), (first.black, last.white)
        sides = tuple(tuple(it.casefold() for it in side[: len(boards)]) for side in (one, other))
        return cls(pool, (sides[0], sides[1]), SCORES[first.result])


class Point(NamedTuple):
    """What somebody was behind the games of a day, and how many there had been by then."""

    day: int
    rating: Rating
    games: int


class Standing(NamedTuple):
    """What somebody is in a pool."""

    name: str
    pool: Pool
    rating: Rating
    games: int

    @property
    def points(self) -> int:
        return round(self.rating.rating)

    @property
    def deviation(self) -> int:
        return round(self.rating.deviation)

    @property
    def is_provisional(self) -> bool:
        return self.rating.deviation > PROVISIONAL


class Table:
    """All curves, by pool and by name in small letters."""

    def __init__(self) -> None:
        self.curves: dict[Pool, dict[str, list[Point]]] = {it: {} for it in Pool}

    def cut(self, day: int) -> None:
        """Forgets that day and all behind it."""
        for curves in self.curves.values():
            for name in [name for name, curve in curves.items() if curve[-1].day >= day]:
                curve = curves[name]
                del curve[bisect_left(curve, (day,)) :]
                if not curve:
                    del curves[name]

    def before(self, pool: Pool, name: str, day: int) -> Rating:
        """What somebody is as that day begins, behind which no curve has a point."""
        curve = self.curves[pool].get(name)
        return idle(curve[-1].rating, day - curve[-1].day - 1) if curve else NEWCOMER

    def rate(self, day: int, bouts: Iterable[Bout]) -> None:
        """Counts the games of a day behind all those that it has."""
        met: defaultdict[tuple[Pool, str], list[Met]] = defaultdict(list)
        for bout in bouts:
            first, second = ([self.before(bout.pool, it, day) for it in side] for side in bout.sides)
            for side, own, others, score in (
                (bout.sides[0], first, second, bout.score),
                (bout.sides[1], second, first, 1 - bout.score),
            ):
                for name, known in zip(side, own):
                    met[bout.pool, name].append(met_by(known, own, others, score))
        behind = {key: updated(self.before(*key, day), games) for key, games in met.items()}
        for (pool, name), rating in behind.items():
            curve = self.curves[pool].setdefault(name, [])
            curve.append(Point(day, rating, (curve[-1].games if curve else 0) + len(met[pool, name])))

    def standing(self, pool: Pool, name: str, day: int) -> Standing | None:
        """What somebody is behind that day, the last one that was counted; none without a rated game."""
        curve = self.curves[pool].get(name.casefold())
        if not curve:
            return None
        return Standing(name, pool, idle(curve[-1].rating, day - curve[-1].day), curve[-1].games)


def met_by(known: Rating, own: list[Rating], others: list[Rating], score: float) -> Met:
    """Whom somebody has met: the other; in bughouse who is above him as much as the other pair is above his own at the
    mean, and as sure as those two are by the root of their mean square."""
    ahead = sum(it.mu for it in others) / len(others) - sum(it.mu for it in own) / len(own)
    return Met(known.mu + ahead, math.sqrt(sum(it.phi**2 for it in others) / len(others)), score)
