"""Who is numbered before whom: by the ratings that an archive makes of its games."""

from collections.abc import Sequence
from pathlib import Path

from ficsd_companions.archive.index import Index
from ficsd_companions.ratings import words
from ficsd_companions.ratings.pools import Pool, chess_pool
from ficsd_companions.ratings.rated import Ratings
from ficsd_companions.ratings.table import Standing
from ficslink.terms import Terms

STARTING_SECONDS = 10  # a game of 0 minutes with an increment begins with so many


def pool_of(terms: Terms) -> Pool:
    """The pool of games on these terms."""
    if terms.kind != "chess":
        return Pool(terms.kind)
    return chess_pool(60 * terms.minutes or STARTING_SECONDS, terms.increment) if terms.is_timed else Pool.CLASSICAL


def standings(archive: Path, terms: Terms, players: Sequence[str]) -> dict[str, Standing | None]:
    """Who joined in the order of their ratings: those that are sure, those that are provisional, and who has none.
    Equal ones stay in the order in which they joined."""
    ratings = Ratings(Index(archive))
    ratings.refresh()
    pool = pool_of(terms)
    found = {player: ratings.standing(pool, player) for player in players}
    return dict(sorted(found.items(), key=lambda it: place(it[1])))


def place(it: Standing | None) -> tuple[int, int]:
    return (2, 0) if not it else (int(it.is_provisional), -it.points)


def said(found: dict[str, Standing | None]) -> list[str]:
    """The order in words."""
    return words.packed([f"{player} {words.points(it)}" if it else player for player, it in found.items()])
