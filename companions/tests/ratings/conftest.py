"""An archive and its ratings."""

from dataclasses import dataclass, field
from pathlib import Path
from unittest import mock

import pytest
from ficsd_companions.archive import index
from ficsd_companions.archive.index import Index
from ficsd_companions.ratings.pools import Pool
from ficsd_companions.ratings.rated import Ratings

Figures = dict[tuple[str, str], tuple[float, float, float]]


def now_of(ratings: Ratings) -> Figures:
    """What everybody is in each pool, once it was looked for what is new."""
    with mock.patch.object(index, "AT_LEAST_SECONDS", 0):
        ratings.refresh()
    return {(pool.value, it.name): tuple(it.rating) for pool in Pool for it in ratings.ladder(pool)}


@dataclass
class Rated:
    """A folder of an archive, and its ratings."""

    folder: Path
    ratings: Ratings = field(init=False)

    def __post_init__(self) -> None:
        self.ratings = Ratings(Index(self.folder))

    def now(self) -> Figures:
        return now_of(self.ratings)

    def verdicts(self, day: str = "2026-11-30") -> list[str]:
        """What is said of each game of a day."""
        self.now()
        return [str(it.verdict) for it in self.ratings.judged(day)]


@pytest.fixture
def archive(tmp_path: Path) -> Rated:
    folder = tmp_path / "games"
    folder.mkdir()
    return Rated(folder)
