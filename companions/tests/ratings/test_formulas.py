"""The formulas, by the example that the paper works out."""

import pytest
from ficsd_companions.ratings.glicko import MOST_DEVIATION, NEWCOMER, SCALE, Met, Rating, idle, updated

from . import paper


def met(rating: float, deviation: float, score: float) -> Met:
    return Met((rating - 1500) / SCALE, deviation / SCALE, score)


def test_the_papers_example() -> None:
    """A player of 1500 wins against 1400, and loses to 1550 and 1700."""
    behind = updated(Rating(1500, 200, 0.06), [met(1400, 30, 1), met(1550, 100, 0), met(1700, 300, 0)])
    assert behind.rating == pytest.approx(1464.06, abs=0.01)
    assert behind.deviation == pytest.approx(151.52, abs=0.01)
    assert behind.volatility == pytest.approx(0.05999, abs=0.00001)


def test_the_plain_formulas_have_it_too() -> None:
    games = [((r - 1500) / 173.7178, rd / 173.7178, s) for r, rd, s in ((1400, 30, 1), (1550, 100, 0), (1700, 300, 0))]
    r, rd, sigma = paper.glicko2([1500, 200, 0.06], [(m, p, float(s)) for m, p, s in games])
    assert (r, rd) == (pytest.approx(1464.06, abs=0.01), pytest.approx(151.52, abs=0.01))
    assert sigma == pytest.approx(0.05999, abs=0.00001)


def test_a_surprise_raises_the_volatility() -> None:
    """Where the result is far from what was expected the zero lies above where it is looked for first."""
    known = Rating(1500, 50, 0.06)
    opponents = [met(2200, 40, 1)] * 12
    behind = updated(known, opponents)
    plain = paper.glicko2([1500, 50, 0.06], [tuple(it) for it in opponents])
    assert behind.volatility > 0.06
    assert list(behind) == pytest.approx(plain, abs=0.001)


def test_without_games_the_deviation_grows_alone_and_has_a_bound() -> None:
    known = Rating(1800, 50, 0.06)
    year = idle(known, 365)
    assert (year.rating, year.volatility) == (pytest.approx(1800), 0.06)
    assert 200 < year.deviation < 215
    step = known
    for _ in range(365):
        step = idle(step, 1)
    assert list(step) == pytest.approx(list(year))
    assert idle(known, 10000).deviation == MOST_DEVIATION == NEWCOMER.deviation
