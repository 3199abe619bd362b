"""Glicko-2, as in Mark Glickman's "Example of the Glicko-2 system" (2013), by its names and its steps."""

import math
from collections.abc import Sequence
from typing import NamedTuple

SCALE = 173.7178  # points of a rating to one of the paper's inner scale
MIDDLE = 1500.0
TAU = 0.5  # how much the volatility may change in a period
MOST_DEVIATION = 350.0
CLOSE = 0.000001  # within which the volatility is found


class Rating(NamedTuple):
    """What is known of a player's strength."""

    rating: float
    deviation: float
    volatility: float

    @property
    def mu(self) -> float:
        return (self.rating - MIDDLE) / SCALE

    @property
    def phi(self) -> float:
        return self.deviation / SCALE


class Met(NamedTuple):
    """An opponent of the period, on the inner scale, and what the game brought: 1, 0.5 or 0."""

    mu: float
    phi: float
    score: float


NEWCOMER = Rating(MIDDLE, MOST_DEVIATION, 0.06)


def rating_of(mu: float, phi: float, volatility: float) -> Rating:
    """A rating of the inner scale; no deviation is above a newcomer's."""
    return Rating(SCALE * mu + MIDDLE, min(SCALE * phi, MOST_DEVIATION), volatility)


def idle(known: Rating, periods: int) -> Rating:
    """The rating behind so many periods without a game."""
    return rating_of(known.mu, math.sqrt(known.phi**2 + periods * known.volatility**2), known.volatility)


def g(phi: float) -> float:
    return 1 / math.sqrt(1 + 3 * phi**2 / math.pi**2)


def expected(mu: float, met: Met) -> float:
    """The score that is expected against an opponent."""
    return 1 / (1 + math.exp(-g(met.phi) * (mu - met.mu)))


def updated(known: Rating, opponents: Sequence[Met]) -> Rating:
    """The rating behind a period in which these were met, one at least."""
    games = [(g(it.phi), expected(known.mu, it), it.score) for it in opponents]
    inverse = sum(weight**2 * chance * (1 - chance) for weight, chance, _ in games)
    surplus = sum(weight * (score - chance) for weight, chance, score in games)
    v = 1 / inverse
    volatility = new_volatility(known, v, v * surplus)
    phi = 1 / math.sqrt(1 / (known.phi**2 + volatility**2) + inverse)
    return rating_of(known.mu + phi**2 * surplus, phi, volatility)


def new_volatility(known: Rating, v: float, delta: float) -> float:
    """The paper's step 5: the zero of `f` by the Illinois algorithm."""
    a, phi2 = math.log(known.volatility**2), known.phi**2

    def f(x: float) -> float:
        e = math.exp(x)
        return e * (delta**2 - phi2 - v - e) / (2 * (phi2 + v + e) ** 2) - (x - a) / TAU**2

    low = a
    if delta**2 > phi2 + v:
        high = math.log(delta**2 - phi2 - v)
    else:
        k = 1
        while f(a - k * TAU) < 0:
            k += 1
        high = a - k * TAU
    f_low, f_high = f(low), f(high)
    while abs(high - low) > CLOSE:
        middle = low + (low - high) * f_low / (f_high - f_low)
        f_middle = f(middle)
        if f_middle * f_high <= 0:
            low, f_low = high, f_high
        else:
            f_low /= 2
        high, f_high = middle, f_middle
    return math.exp(low / 2)
