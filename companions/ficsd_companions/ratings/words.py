"""What is said of ratings, in lines that a member may tell. Nothing here tells anybody."""

from ficsd_companions.archive.index import Index

from .pools import Pool
from .rated import Judged, Ratings
from .table import Standing

LONGEST = 400  # characters of a line
LAST_GAMES = 10
FIRST_PLACES = 10
RESULTS = {"1/2-1/2": "1/2"}


def packed(texts: list[str], between: str = ", ") -> list[str]:
    """Texts, as many in a line as fit."""
    lines: list[str] = []
    for text in texts:
        if lines and len(lines[-1]) + len(between) + len(text) <= LONGEST:
            lines[-1] += between + text
        else:
            lines.append(text)
    return lines


def count(number: int) -> str:
    return f"{number} game" + ("" if number == 1 else "s")


def points(it: Standing) -> str:
    """A rating, with a question mark where it says little."""
    return f"{it.points}{'?' if it.is_provisional else ''}"


def standing(it: Standing) -> str:
    return f"{it.pool.value} {points(it)} (+-{it.deviation}, {count(it.games)})"


def rating(ratings: Ratings, name: str) -> list[str]:
    """What somebody is in each pool."""
    found = ratings.standings(name)
    if not found:
        return [f"{ratings.spelled(name)} has no rated game."]
    return packed([f"{found[0].name}: {standing(found[0])}", *map(standing, found[1:])])


def place(number: int, it: Standing) -> str:
    return f"{number}. {it.name} {points(it)}"


def ladder(ratings: Ratings, pool: Pool, asks: str = "") -> list[str]:
    """The first ones of a pool, and the place of who asks; who is provisional has none."""
    sure = [it for it in ratings.ladder(pool) if not it.is_provisional]
    if not sure:
        return [f"{pool.value}: nobody has played enough for a sure rating."]
    rows = list(enumerate(sure, 1))
    own = [it for it in rows[FIRST_PLACES:] if it[1].name.casefold() == asks.casefold()]
    first, *others = [place(*it) for it in rows[:FIRST_PLACES] + own]
    return packed([f"{pool.value}: {first}", *others])


def game(it: Judged) -> str:
    """A game, and what is said of it."""
    kept = it.game
    return f"{kept.link} {kept.white} - {kept.black} {RESULTS.get(kept.result, kept.result)} {it.verdict}"


def history(ratings: Ratings, index: Index, name: str, most: int = LAST_GAMES) -> list[str]:
    """Somebody's last games, the newest first."""
    player = index.player(name)
    if not player:
        return [f"{name} has no game in the archive."]
    return packed([game(ratings.judge(it)) for it in player.games[: -most - 1 : -1]], "; ")
