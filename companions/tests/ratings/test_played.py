"""An evening over the server, which the scribe keeps: what is rated of it, and by a reader of the paper's formulas too.
"""

from collections.abc import AsyncIterator
from pathlib import Path

import pytest
from ficsd_companions.archive.index import Index
from ficsd_companions.names.known import Names
from ficsd_companions.ratings.rated import Ratings

from tests.kit import paths
from tests.kit.running import Run, async_wait_until
from tests.scribe.conftest import Evening

from . import paper
from .conftest import now_of


class Rated(Evening):
    """An evening whose scribe knows who has an account."""

    def run_scribe(self) -> Run:
        words = "--server", self.server.address, "--archive", self.archive, "--name", "Scribe"
        return Run(paths.companion("fics_scribe"), *words, "--accounts", self.store)


@pytest.fixture
async def evening(tmp_path: Path) -> AsyncIterator[Rated]:
    it = Rated(tmp_path)
    try:
        await it.until_scribe_is_in()
        yield it
        await it.close()
    finally:
        it.scribe.end()
        it.server.end()


async def game(evening: Rated, terms: str, white: str, black: str, moves: str, resigns: str) -> None:
    await evening.seat(terms, white, black)
    await evening.play(moves, white, black)
    await evening.say(resigns, "resign")


async def test_an_evening(evening: Rated) -> None:
    await evening.register("Ann", "Ben", "Cat", "Dan")
    await evening.enter("Eve")
    names = Names(evening.store)
    assert await async_wait_until(lambda: names.known() == {"ann", "ben", "cat", "dan"})
    await game(evening, "5 0", "Ann", "Ben", "e4 e5 Nf3", "Ben")
    await game(evening, "5 0", "Cat", "Ann", "e4 e5 Nf3 Nc6", "Ann")
    await game(evening, "1 0 crazyhouse", "Cat", "Dan", "e4 d5 exd5 Qxd5", "Cat")
    await game(evening, "15 10 fischer 17", "Ben", "Dan", "e4 e5 d4", "Dan")
    await game(evening, "5 0", "Ann", "Eve", "e4 e5 Nf3", "Eve")
    await game(evening, "5 0", "Ben", "Cat", "e4 e5", "Cat")
    await evening.all_hear()
    for one, other in (("Ann", "Dan"), ("Ben", "Cat")):
        await evening.say(one, f"partner {other}")
        await evening.say(other, f"partner {one}")
    await evening.seat("3 0 bughouse", "Ann", "Ben")
    await evening.play("e4 d5 exd5", "Ann", "Ben")
    await evening.play("e4 e5", "Cat", "Dan")
    await evening.say("Ben", "resign")
    kept = await evening.kept(8)
    said = {(tags["White"], tags["Black"]): (tags["WhiteAccount"], tags["BlackAccount"]) for tags, _ in kept}
    assert said["Ann", "Eve"] == ("yes", "no") and set(said.values()) == {("yes", "yes"), ("yes", "no")}
    ratings = Ratings(Index(evening.archive))
    figures = now_of(ratings)
    plain = paper.rate(evening.archive)
    assert set(figures) == set(plain)
    assert {pool for pool, _ in figures} == {"blitz", "crazyhouse", "fischer", "bughouse"}
    for key, player in plain.items():
        assert list(figures[key]) == pytest.approx(player, abs=1e-6), key
    judged = (it for day in ratings.index.known_days for it in ratings.judged(day))
    verdicts = {(it.game.white, it.game.black, str(it.verdict)) for it in judged}
    assert {it for it in verdicts if not it[2].startswith("rated")} == {
        ("Ann", "Eve", "not rated: Eve had no account"),
        ("Ben", "Cat", "not rated: it has fewer than two moves"),
    }
    assert figures["bughouse", "Ann"] == figures["bughouse", "Dan"] > figures["bughouse", "Ben"]
