"""What pages are told of ratings: objects, as JSON has them."""

from datetime import date

from ficsd_companions.archive.kept import Kept

from .pools import Pool
from .rated import Ratings
from .table import Point, Standing

Told = dict[str, object]
POOLS = frozenset(it.value for it in Pool)
MOST_ROWS = 500  # of a ladder
MOST_POINTS = 400  # of a curve
MOST_NAMES = 256  # as many as a hall has


def standing(it: Standing) -> Told:
    return {
        "pool": it.pool.value,
        "name": it.name,
        "points": it.points,
        "deviation": it.deviation,
        "games": it.games,
        "isProvisional": it.is_provisional,
    }


def thinned(curve: list[Point]) -> list[Point]:
    """At most so many points, the last one among them."""
    step = -(-len(curve) // MOST_POINTS)
    return curve[::-1][:: step or 1][::-1]


def of_player(ratings: Ratings, name: str) -> list[Told]:
    """What somebody is in each pool, and since when."""
    return [{**standing(it), "curve": points(ratings, it)} for it in ratings.standings(name)]


def points(ratings: Ratings, it: Standing) -> list[list[object]]:
    """A curve: of each day the rating behind it and its deviation."""
    curve = thinned(ratings.curve(it.pool, it.name))
    return [[date.fromordinal(at.day).isoformat(), round(at.rating.rating), round(at.rating.deviation)] for at in curve]


def of_pools(ratings: Ratings) -> list[list[object]]:
    """The pools in which somebody has a rating, and how many do."""
    counts = [(pool.value, len(ratings.table.curves[pool])) for pool in Pool]
    return [[name, count] for name, count in counts if count]


def of_ladder(ratings: Ratings, pool: str) -> Told:
    rows = ratings.ladder(Pool(pool))
    return {
        "pool": pool,
        "pools": of_pools(ratings),
        "count": len(rows),
        "rows": [standing(it) for it in rows[:MOST_ROWS]],
    }


def of_names(ratings: Ratings, names: str) -> Told:
    """What some players are, in the pool with most of their games first; who has no rated game is left out."""
    asked = [it for it in names.split(",") if it][:MOST_NAMES]
    found = {it: sorted(ratings.standings(it), key=lambda its: -its.games) for it in asked}
    return {name: [standing(it) for it in standings] for name, standings in found.items() if standings}


def of_game(ratings: Ratings, game: Kept) -> Told:
    """Whether a game is rated, and why not, by the name of the cause."""
    it = ratings.judge(game).verdict
    return {"why": it.why.name, "who": it.who, "pool": it.pool.value if it.pool else ""}
